#include "port_ledger.h"

enum { ON_NO_PHY = -1 };

static struct {
	struct key key;
	uint8_t slot;
	int phy;
} ledger[SLOTS];

static unsigned live;
static unsigned long submitted, ended;

void ledger_begin(void)
{
	live = 0;
}

unsigned ledger_live(void)
{
	return live;
}

unsigned long ledger_submitted(void)
{
	return submitted;
}

unsigned long ledger_ended(void)
{
	return ended;
}

static bool same_key(struct key a, struct key b)
{
	return a.destination == b.destination && a.protocol == b.protocol && a.tag == b.tag;
}

static unsigned entry_of(struct key key)
{
	unsigned i = 0;
	while (i < live && !same_key(ledger[i].key, key)) {
		i++;
	}
	return i;
}

static bool is_phy_taken(int phy, unsigned but)
{
	for (unsigned i = 0; i < live; i++) {
		if (i != but && ledger[i].phy == phy) {
			return true;
		}
	}
	return false;
}

static bool enter(struct key key, uint8_t slot)
{
	for (unsigned i = 0; i < live; i++) {
		if (same_key(ledger[i].key, key) || ledger[i].slot == slot) {
			return false;
		}
	}
	if (live == SLOTS) {
		return false;
	}
	ledger[live].key = key;
	ledger[live].slot = slot;
	ledger[live].phy = ON_NO_PHY;
	live++;
	submitted++;
	return true;
}

bool ledger_hear(enum call call, const struct sonerwal_port_step *reply)
{
	struct key key = {reply->frame.destination, reply->frame.protocol, reply->frame.tag};
	unsigned i = entry_of(key);
	int phy = reply->phy == NO_PHY ? ON_NO_PHY : reply->phy;
	if (reply->slot == NO_SLOT) {
		return true;
	}
	if (reply->answer == SONERWAL_SUBMITTED) {
		return enter(key, reply->slot);
	}
	if (i == live || ledger[i].slot != reply->slot || (phy != ON_NO_PHY && is_phy_taken(phy, i))) {
		return false;
	}
	if (call == CHOOSE) {
		bool waited = ledger[i].phy == ON_NO_PHY;
		ledger[i].phy = reply->answer == SONERWAL_CLOSE ? ON_NO_PHY : phy;
		return waited;
	}
	if (ledger[i].phy != phy) {
		return false;
	}
	if (reply->answer == SONERWAL_RETRIED || reply->answer == SONERWAL_WAITING) {
		ledger[i].phy = ON_NO_PHY;
	} else if (reply->answer >= SONERWAL_CANCEL_ACKNOWLEDGED) {
		ledger[i] = ledger[--live];
		ended++;
	}
	return true;
}
