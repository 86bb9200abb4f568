// What a program finds beside the system calls.
#include "kernel/types.h"
#include "user/user.h"

uint strlen(const char *s)
{
  uint n = 0;
  while (s[n])
    n++;
  return n;
}

int strcmp(const char *p, const char *q)
{
  while (*p && *p == *q)
    p++, q++;
  return (uchar)*p - (uchar)*q;
}

void *memset(void *dst, int c, uint n)
{
  for (char *d = dst; n > 0; n--)
    *d++ = c;
  return dst;
}

void *memmove(void *dst, const void *src, int n)
{
  char *d = dst;
  const char *s = src;
  if (s > d)
    while (n-- > 0)
      *d++ = *s++;
  else
    while (n-- > 0)
      d[n] = s[n];
  return dst;
}

void *memcpy(void *dst, const void *src, unsigned long n)
{
  return memmove(dst, src, n);
}

int atoi(const char *s)
{
  int n = 0;
  while ('0' <= *s && *s <= '9')
    n = n * 10 + *s++ - '0';
  return n;
}
