/* The one number that the C file asks of it. */
#define CHAR_BIT __CHAR_BIT__
