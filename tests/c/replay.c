/* What `aim replay` does, by calls of the library: for a comparison of both, byte by byte. */
#include <aim.h>
#include <stdio.h>
#include <stdlib.h>

int main(void) {
    aim_session *session = malloc(aim_session_size());
    static char line[1 << 16];
    unsigned long number = 0;
    int status = 3;
    if (session == NULL) return 7;
    aim_session_make(session);
    while (fgets(line, sizeof line, stdin) != NULL) {
        number++;
        line[strcspn(line, "\n")] = 0;
        aim_answer answer = aim_session_take_text(session, line);
        if (answer.outcome == AIM_ENTRY) printf("%s\n", answer.text);
        if (answer.outcome == AIM_FAULT) printf("bad line %lu %s\n", number, aim_fault_text(answer.fault).text);
        if (answer.outcome == AIM_LIMIT) printf("limit %s\n", aim_fault_text(answer.fault).text);
        if (answer.outcome == AIM_ENDED) printf("bad line %lu order\n", number);
        if (answer.outcome == AIM_LIMIT) status = 6;
        if (answer.outcome > AIM_ENTRY) break;
    }
    if (feof(stdin)) {
        if (aim_session_stage(session) == AIM_AT_END) {
            printf("end %u\n", aim_session_entries(session));
            status = 0;
        } else {
            printf("bad line %lu end\n", number + 1);
        }
    }
    aim_session_end(session);
    free(session);
    return status;
}
