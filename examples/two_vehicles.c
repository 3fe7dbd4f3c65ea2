/* Two vehicles cross a small crossing one after the other. The second asks again where it is refused.
     tools/library.sh dist/library
     cc examples/two_vehicles.c -Idist/library/include -Ldist/library/lib -laim -Wl,-rpath,dist/library/lib && ./a.out */
#include <aim.h>
#include <stdio.h>
#include <stdlib.h>

static const char *const header[] = {
    "aim 1", "grid 4000 4 100 0 450 4096", "times 1500 25 20 0 0", "lanes 2",
    "move 0 straight line 0 1500 4000 1500 40", "move 1 straight line 2500 0 2500 4000 40",
    "policy plain fcfs", "vehicles 2", "begin",
};

static aim_answer say(aim_session *session, const char *line) {
    aim_answer answer = aim_session_take_text(session, line);
    if (answer.outcome == AIM_ENTRY) {
        printf("%s\n", answer.text);
    } else if (answer.outcome != AIM_TAKEN) {
        fprintf(stderr, "%s: not taken %s\n", line, aim_fault_text(answer.fault).text);
        exit(1);
    }
    return answer;
}

int main(void) {
    aim_session *session = malloc(aim_session_size());
    if (session == NULL) return 1;
    aim_session_make(session);
    for (size_t i = 0; i < sizeof header / sizeof *header; i++) say(session, header[i]);

    for (unsigned vehicle = 0, step = 0; vehicle < 2; vehicle++) {
        char line[400];
        aim_reply reply;
        for (unsigned seq = 1;; seq++, step = reply.next) {
            snprintf(line, sizeof line, "%u %u request %u %u straight %u 500 500 0 1000 700 car", vehicle, step, seq,
                     vehicle, step + 10);
            reply = say(session, line).reply;
            if (reply.kind == AIM_CONFIRM) break;
        }
    }
    say(session, "end");
    printf("end %u\n", aim_session_entries(session));
    aim_session_end(session);
    free(session);
    return 0;
}
