/* The interrupt sources that servers of this machine serve. */
#ifndef HARDWARE_INTBITS_H
#define HARDWARE_INTBITS_H
#define INTB_PORTS 3
#define INTB_VERTB 5
#define INTB_EXTER 13
#define INTF_PORTS (1L << 3)
#define INTF_VERTB (1L << 5)
#define INTF_EXTER (1L << 13)
#endif
