/* parts.h: the parts of the test program that try what was chosen on purpose. */
#ifndef WILLOWBLINK_PARTS_H
#define WILLOWBLINK_PARTS_H

void try_samples(void);
void try_plate_edges(void);
void try_plate_u_edges(void);
void try_text_edges(void);
void try_fault_places(void);
void try_register_edges(void);
void try_weight_edges(void);

#endif
