/*
 * one CALL FILE: puts the text to the call of this name, one of text_calls in callers.h, and ends as the program does that the call stands for: its
 * lines go to standard output, or where the status is 2 or more the reason to standard error, and the status is the call's.
 */
#include "callers.h"

int main(int count, char **words) {
    for (size_t place = 0; count == 3 && place < TEXT_CALLS; place++) {
        if (strcmp(words[1], text_calls[place].name))
            continue;
        struct bytes out, text = read_file(words[2]);
        mirfodwel_status status = call_text(text_calls[place].call, text, &out);
        fwrite(out.at, 1, out.length, status < 2 ? stdout : stderr);
        return failed ? 99 : status;
    }
    return 98;
}
