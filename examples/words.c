/* words.dll: counts the words of a text, and how often it was asked. */
static const char blanks[] = " \t\r\n";

unsigned asked;

static int is_blank(char letter)
{
    for (const char *blank = blanks; *blank; blank++)
        if (*blank == letter)
            return 1;
    return 0;
}

unsigned count_words(const char *text)
{
    unsigned count = 0;
    int inside = 0;
    asked++;
    for (; *text; text++) {
        int blank = is_blank(*text);
        if (!blank && !inside)
            count++;
        inside = !blank;
    }
    return count;
}

const char *size_name(unsigned count)
{
    switch (count) {
    case 0: return "none";
    case 1: return "one";
    case 2: return "a pair";
    case 3: return "three";
    case 4: return "four";
    case 5: return "a hand full";
    default: return "many";
    }
}
