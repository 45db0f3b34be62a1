/* A name that was never declared. */
int main() {
  x = 1;
  return 0;
}
