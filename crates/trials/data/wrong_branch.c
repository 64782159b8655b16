#include <assert.h>

/* How many days a month has, in a year of the Gregorian calendar. */
int days(int month, int year)
{
    int leap;

    leap = 0;
    if (year % 4 == 0)
        leap = 1;
    if (year % 100 == 0)
        leap = 0;
    if (year % 400 == 0)
        leap = 0;

    if (month == 2)
        return 28 + leap;
    if (month == 4 || month == 6 || month == 9 || month == 11)
        return 30;
    return 31;
}

int main(int month, int year, int expected)
{
    int found;

    found = days(month, year);
    assert(found == expected);
    return 0;
}
