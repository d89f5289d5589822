int main(void) {
  int x = 6;
  x = x * 7;
  printf("%d\n", x);
  return 0;
}
