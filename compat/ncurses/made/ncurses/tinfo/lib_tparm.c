/* Stands in for a file of ncurses 6.4, so that what make puts there can be tried: all that expand.c needs, and a program that prints
 * what strings expand to. */
#include <stdint.h>
#include <stdio.h>
#include <stdlib.h>
#include <string.h>

#define NUM_PARM 9
#define NUM_VARS 26
#define TPS(var) tps->var

typedef struct {
    char *out_buff;
    size_t out_size, out_used;
    int static_vars[NUM_VARS];
} TPARM_STATE;

typedef struct {
    int num_actual, num_parsed, num_popped;
    long param[NUM_PARM];
    char *p_is_s[NUM_PARM];
} TPARM_DATA;

static int _nc_tparm_err;

static void
get_space(TPARM_STATE *tps, size_t need)
{
    if (TPS(out_size) < TPS(out_used) + need) {
        TPS(out_size) = TPS(out_used) + need;
        TPS(out_buff) = realloc(TPS(out_buff), TPS(out_size));
        if (TPS(out_buff) == NULL)
            abort();
    }
}

static char *
tparam_internal(TPARM_STATE *tps, const char *string, TPARM_DATA *data)
{
    (void)tps;
    (void)string;
    (void)data;
    return "of termcap";
}

static void
show(TPARM_STATE *tps, const char *string, int popped)
{
    TPARM_DATA data = {3, 3, popped, {4, 9, 0}, {NULL, NULL, "text"}};
    const char *got = tparam_internal(tps, string, &data);
    printf("%zu:", strlen(got));
    printf("%.*s\n", 20, got);
}

int
main(void)
{
    TPARM_STATE state = {NULL, 0, 0, {0}};
    show(&state, "[%i%p1%d;%p2%dH", 2);
    show(&state, "%d;%d", 0);
    show(&state, "%p1%PA%p2%Pa%p3%s", 3);
    show(&state, "%p1%{2}%*%gA%ga%p2%d%d%d", 3);
    show(&state, "%p1%z", 1);
    show(&state, "%p1%200d%p1%200d%p1%200d", 1);
    show(&state, "%p1%{0}%/%d", 1);
    printf("%d faults\n", _nc_tparm_err);
    free(state.out_buff);
    return 0;
}
