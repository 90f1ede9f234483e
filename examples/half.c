int f(void){return 6/4;}
