Word16 x, y;
void frame(void) { y = add(x, 1); }
