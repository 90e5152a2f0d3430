/*
 * What calls and answers alone say of requests: each that was submitted gets one last word, and no phy has two at a time. It knows
 * neither the model nor the records.
 */
#ifndef SONERWAL_TESTS_PORT_LEDGER_H
#define SONERWAL_TESTS_PORT_LEDGER_H

#include "port_model.h"

/* At a setup. */
void ledger_begin(void);

/* Whether an answer fits what was said before. */
bool ledger_hear(enum call call, const struct sonerwal_port_step *reply);

/* How many requests have had no last word. */
unsigned ledger_live(void);

/* Over all setups: how many were submitted, and how many had a last word. */
unsigned long ledger_submitted(void);
unsigned long ledger_ended(void);

#endif
