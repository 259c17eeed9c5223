/* Forces nothing to the disk for the process that it is preloaded into, and says that it did. */

int fsync(int file) {
  (void)file;
  return 0;
}

int fdatasync(int file) {
  (void)file;
  return 0;
}
