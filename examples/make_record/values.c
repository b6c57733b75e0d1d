#include "values.h"

#include <errno.h>
#include <float.h>
#include <stdio.h>
#include <stdlib.h>
#include <string.h>

static bool all_digits(const char *text)
{
    return text[0] != '\0' && text[strspn(text, "0123456789")] == '\0';
}

bool read_number(const char *text, uint64_t most, uint64_t *number)
{
    *number = 0;
    if (!all_digits(text))
        return false;
    for (; *text != '\0'; text++) {
        unsigned digit = (unsigned)(*text - '0');
        *number = *number > (most - digit) / 10 ? most : 10 * *number + digit;
    }
    return true;
}

static unsigned leap_years_before(unsigned year)
{
    return (year - 1) / 4 - (year - 1) / 100 + (year - 1) / 400;
}

bool read_date(const char *text, uint32_t *day)
{
    static const unsigned lengths[] = {31, 28, 31, 30, 31, 30, 31, 31, 30, 31, 30, 31};
    char digits[9];
    uint64_t date;
    if (strlen(text) != 10 || text[4] != '-' || text[7] != '-')
        return false;
    snprintf(digits, sizeof digits, "%.4s%.2s%.2s", text, text + 5, text + 8);
    if (!read_number(digits, UINT32_MAX, &date))
        return false;
    unsigned year = (unsigned)date / 10000, month = (unsigned)date / 100 % 100, of_month = (unsigned)date % 100;
    bool leap = year % 4 == 0 && (year % 100 != 0 || year % 400 == 0);
    if (year < 1970 || month < 1 || month > 12)
        return false;
    if (of_month < 1 || of_month > lengths[month - 1] + (month == 2 && leap))
        return false;
    *day = 365 * (year - 1970) + leap_years_before(year) - leap_years_before(1970) + of_month - 1;
    for (unsigned before = 1; before < month; before++)
        *day += lengths[before - 1] + (before == 2 && leap);
    return true;
}

static bool is_real(const char *text)
{
    static const char *const words[] = {"nan", "NaN", "NAN", "inf", "Inf", "INF", "infinity", "Infinity"};
    const char *digits = "0123456789";
    text += text[0] == '-';
    for (size_t i = 0; i < sizeof words / sizeof words[0]; i++)
        if (strcmp(text, words[i]) == 0)
            return true;
    size_t whole = strspn(text, digits), part = 0;
    text += whole;
    if (*text == '.') {
        part = strspn(text + 1, digits);
        text += 1 + part;
    }
    if (whole + part == 0)
        return false;
    if (*text == 'e' || *text == 'E') {
        text += 1 + (text[1] == '-' || text[1] == '+');
        return all_digits(text);
    }
    return *text == '\0';
}

bool read_share(const char *text, double *share)
{
    if (!is_real(text))
        return false;
    errno = 0;
    *share = strtod(text, NULL);
    if (errno == ERANGE && *share == 0)
        *share = DBL_TRUE_MIN;
    if (errno == ERANGE && (*share < -DBL_MAX || *share > DBL_MAX))
        *share = DBL_MAX;
    return true;
}

double rounded_share(double share)
{
    double scaled = 65536 * share;
    if (!(scaled > -1e9 && scaled < 1e9))
        return share;
    int64_t whole = (int64_t)scaled;
    double rest = scaled - (double)whole;
    if (rest == 0)
        return share;
    whole += (rest >= 0.5) - (rest <= -0.5);
    return (double)whole / 65536;
}
