/*
 * The calls of an earlier version of the proved library, as a baseline. Its
 * functions are in a copy of its archive, in which before_ stands in front of
 * every name, so that the library itself can be linked beside it.
 */
#include "baseline.h"

cipher_call before_gordzila_encipher;
cipher_call before_gordzila_decipher;
prepare_call before_gordzila_prepare_enciphering;
prepare_call before_gordzila_prepare_deciphering;
run_call before_gordzila_run;
check_call before_gordzila_check;
queue_call before_gordzila_check_queue;
seal_call before_gordzila_seal_page;
open_call before_gordzila_open_page;
walk_call before_gordzila_holder_walk;
stage_call before_gordzila_stage;

const struct baseline BASELINE = {
    .encipher = before_gordzila_encipher,
    .decipher = before_gordzila_decipher,
    .prepare_enciphering = before_gordzila_prepare_enciphering,
    .prepare_deciphering = before_gordzila_prepare_deciphering,
    .run = before_gordzila_run,
    .check = before_gordzila_check,
    .check_queue = before_gordzila_check_queue,
    .seal_page = before_gordzila_seal_page,
    .open_page = before_gordzila_open_page,
    .holder_walk = before_gordzila_holder_walk,
    .stage = before_gordzila_stage
};
