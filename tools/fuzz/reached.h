/* Counts which instructions of the library are reached: `file` says where they stand. */
void watch(const char *file);
