/*
 * When a state is sound, when a packet is ahead, and what kind of packet it is: the rules' sentences in plain
 * C, written from the rules and the layout of the rooms, not from the engine.
 */
#ifndef SOUND_H
#define SOUND_H

#include <stdbool.h>
#include <stddef.h>
#include <stdint.h>

/* A connection with its rooms, as they are lent. */
struct client {
    const uint64_t *state;
    size_t state_len;
    const uint8_t *requests;
    size_t requests_len;
    const uint8_t *store;
    size_t store_len;
    const uint32_t *slots;
    size_t slots_len;
};

bool client_rooms(const struct client *c);
bool client_sound(const struct client *c);

/* Whether a whole record stands at an index, the window ending at end. */
bool record_stands(const uint8_t *store, size_t store_len, size_t at, size_t end);

/* Whether a packet of 32 bytes or more answers what was not asked of a sound client. */
bool packet_ahead(const uint64_t *state, const uint8_t *packet);

/* The class of a packet that begins with a code, as a number. */
uint8_t class_of(uint8_t code);

/* A reader or a handshake, in three numbers beside its buffer. */
bool reader_sound(const uint64_t *row, size_t row_len, const uint8_t *buf, size_t buf_len);
bool handshake_sound(const uint64_t *row, size_t row_len, const uint8_t *buf, size_t buf_len);

bool ids_sound(const uint64_t *row, size_t row_len);

/* Whole numbers from bytes, in an order. */
uint64_t number_at(const uint8_t *bytes, size_t width, bool little);

#endif
