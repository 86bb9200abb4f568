// A few variables with initial values, and ZEROS bytes of zeros that the file does not have.

#ifndef ZEROS
#define ZEROS 150000
#endif

long counter = 0x1122334455667788;
char message[] = "ready";
static char zeros[ZEROS];

int main(void)
{
    for (unsigned long i = 0; i < sizeof zeros; i++) {
        zeros[i] = (char)(i + counter);
    }
    return zeros[counter & 0xffff] + message[0];
}
