/* For the file lib_tparm.c of ncurses 6.4: tparm expands by ti_expand, which is proved. make puts this after ncurses' own
 * function, which it calls tparam_of_termcap, and which expands the strings that pop no parameter, as termcap has them. This layer is
 * not proved.
 *
 * A string that the library refuses becomes an empty one.
 */
#include <ti.h>

static char *
tparam_internal(TPARM_STATE *tps, const char *string, TPARM_DATA *data)
{
    const size_t length = strlen(string);
    ti_parameter parameters[NUM_PARM];
    ti_vars vars;
    ti_run run;
    uint32_t fault;

    if (data->num_popped == 0 && data->num_parsed > 0)
        return tparam_of_termcap(tps, string, data);
    for (int i = 0; i < NUM_PARM; i++) {
        const char *text = i < data->num_actual ? data->p_is_s[i] : NULL;
        parameters[i] = text != NULL ? ti_text(text, strlen(text)) : ti_number(i < data->num_actual ? (int32_t)data->param[i] : 0);
    }
    /* a to z start with 0 in each call, and A to Z last. */
    memset(vars.values, 0, NUM_VARS * sizeof vars.values[0]);
    memcpy(vars.values + NUM_VARS, TPS(static_vars), NUM_VARS * sizeof vars.values[0]);
    TPS(out_used) = 0;
    get_space(tps, 256);
    while ((fault = ti_expand((const unsigned char *)string, length, parameters, NUM_PARM, &vars, (unsigned char *)TPS(out_buff),
                              TPS(out_size) - 1, &run)) == TI_OUT_TOO_SMALL)
        get_space(tps, run.place + 1);
    if (fault == TI_DONE) {
        memcpy(TPS(static_vars), vars.values + NUM_VARS, NUM_VARS * sizeof vars.values[0]);
    } else {
        _nc_tparm_err++;
        run.written = 0;
    }
    TPS(out_used) = run.written;
    TPS(out_buff)[run.written] = 0;
    return TPS(out_buff);
}
