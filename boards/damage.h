// Damage to what is lent: bytes of the records and of the directory, and lengths.
#ifndef DAMAGE_H
#define DAMAGE_H

// One piece of it, to the memory of a screen of so many rows.
void damage(unsigned height);

unsigned other_height(unsigned height);

#endif
