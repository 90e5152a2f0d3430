#include "port_call.h"

struct sonerwal_port_step port_call(struct sonerwal_request *list, const struct sonerwal_port *port, const struct order *o,
                                    struct sonerwal_open head)
{
	switch (o->call) {
	case SETUP:
		return sonerwal_port_setup(list, o->length, o->count, o->loss);
	case SUBMIT:
		return sonerwal_port_submit(list, o->length, *port, head, o->now);
	case CANCEL:
		return sonerwal_port_cancel(list, o->length, *port, o->key.destination, o->key.protocol, o->key.tag, o->now);
	case CHOOSE:
		return sonerwal_port_choose(list, o->length, *port, o->now);
	case OPENED:
		return sonerwal_port_opened(list, o->length, *port, o->phy, o->now);
	case OPEN_FAILED:
		return sonerwal_port_open_failed(list, o->length, *port, o->phy, o->why, o->now);
	case FRAME_STATUS:
		return sonerwal_port_frame_status(list, o->length, *port, o->phy, o->status, o->now);
	case CLOSED:
		return sonerwal_port_closed(list, o->length, *port, o->phy, o->now);
	case ENABLE:
		return sonerwal_port_enable(list, o->length, *port, o->phy, o->now);
	default:
		return sonerwal_port_disable(list, o->length, *port, o->phy, o->now);
	}
}
