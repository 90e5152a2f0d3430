/* sonerwal.h and nothing before it: it includes what it needs. In C++ too. */
#include "sonerwal.h"

int main(void)
{
	struct sonerwal_transfer s = {0, 0, 0, 0, 0, 0, 0, 0, 0, 0, 0};
	struct sonerwal_write w = {0, 0, 0, 0, 0, 0, 0, 0, 0, 0, 0};
	struct sonerwal_reply r = {0, 0, 0, 0, 0};
	uint8_t line[SONERWAL_SAVED_ROOM];
	int read = sonerwal_transfer_keep(&s, sonerwal_transfer_start(s, 0, 8, 4, 0));
	struct sonerwal_saved saved = sonerwal_transfer_save(s, SONERWAL_SAVED_FORM, line, sizeof line);
	int restored = sonerwal_transfer_keep(&s, sonerwal_transfer_restore(line, saved.length));
	int write = sonerwal_write_keep(&w, sonerwal_write_start(w, 0, 8, 4, 0));
	int reply = sonerwal_reply_keep(&r, sonerwal_reply_start(r, 0));
	return read == SONERWAL_OK && saved.answer == SONERWAL_OK && restored == SONERWAL_OK && write == SONERWAL_OK &&
	       reply == SONERWAL_OK && sonerwal_version() == SONERWAL_VERSION ? 0 : 1;
}
