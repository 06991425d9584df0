extern const char greet_home[];
void greet(const char *name);
