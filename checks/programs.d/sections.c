// Something in each section: code, constants, small and large variables with initial values and without, and a constructor.

const char letters[] = "abcdefghijklmnopqrstuvwxyz";
const int primes[] = {2, 3, 5, 7, 11, 13, 17, 19, 23, 29, 31, 37, 41, 43, 47, 53};
short small = 0x1234;
long squares[] = {0, 1, 4, 9, 16, 25, 36, 49, 64, 81, 100, 121, 144, 169, 196, 225};
int flag;
static long table[200];

static void begin(void)
{
    flag = 1;
}

__attribute__((section(".init_array"), used)) static void (*const first)(void) = begin;

static long sum(const int *numbers, int count)
{
    long total = 0;
    for (int i = 0; i < count; i++) {
        table[i] = numbers[i] * squares[i];
        total += table[i];
    }
    return total;
}

int main(void)
{
    first();
    small++;
    return sum(primes, 16) + letters[flag];
}
