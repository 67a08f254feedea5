/* A plan is decided, its refutation is judged, and a day of another plan is executed, all in this process.
 *     cc day.c $(pkg-config --cflags --libs stnu) */
#include <stdio.h>
#include <string.h>

#include "stnu.h"

static const char plan[] = "stnu 1\n"
                           "point leave\npoint arrive\npoint images\n"
                           "link leave 40 90 arrive\n"
                           "bound at-the-rock images arrive 0\n"
                           "bound before-shadow arrive images 15\n"
                           "end\n";
static const char broken[] = "stnu 1\n"
                             "point leave\npoint arrive\npoint images\n"
                             "link leave 40 90 arrive\n"
                             "bound at-the-rock images arrive -5\n"
                             "bound before-shadow arrive images 3\n"
                             "end\n";

/* Decides the plan that cannot be kept, and has the certificate judged. Gives whether it is accepted. */
static int decide_and_judge(void) {
    char *answer;
    int status = stnu_run((const char *const[]){"check", NULL}, broken, strlen(broken), &answer, NULL);
    if (status != STNU_NO) {
        fprintf(stderr, "check: %s\n", stnu_meaning(status));
        stnu_free(answer);
        return 0;
    }
    const char *certificate = strchr(answer, '\n') + 1;
    stnu judge = stnu_open((const char *const[]){"judge", NULL});
    stnu_feed(judge, broken, strlen(broken));
    status = stnu_feed(judge, certificate, strlen(certificate));
    printf("judge: %s", stnu_answer(judge, NULL));
    stnu_close(judge);
    stnu_free(answer);
    return status == STNU_YES;
}

/* Executes a day in which the drive takes 68 minutes. Gives whether it comes to its end. */
static int execute(void) {
    static const char *const lines[] = {"at 0\n", "at 68 arrive\n", "done\n"};
    stnu day = stnu_open((const char *const[]){"run", NULL});
    int status = stnu_feed(day, plan, strlen(plan));
    printf("%s", stnu_answer(day, NULL));
    for (size_t n = 0; n < 3 && status == STNU_RUNNING; n++) {
        status = stnu_feed(day, lines[n], strlen(lines[n]));
        printf("> %s%s", lines[n], stnu_answer(day, NULL));
    }
    stnu_close(day);
    return status == STNU_YES;
}

int main(void) {
    int is_judged = decide_and_judge(), is_executed = execute();
    return is_judged && is_executed ? 0 : 1;
}
