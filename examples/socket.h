/* What stands around the engine in the examples: a socket, the handshake on it, and requests as bytes. */
#ifndef SOCKET_H
#define SOCKET_H

#include "xiengmado.h"

/* A connected socket, what the server's setup says, and the first screen. */
struct display {
    int socket;
    uint32_t setup[XM_SETUP_FIELDS];
    uint32_t root;
    uint16_t width, height;
};

/* Opens the display that $DISPLAY names; ends the program where that is not possible. */
struct display open_display(void);

/* Ends the program with a line on the error output. */
_Noreturn void die(const char *format, ...);

/* Ends the program unless the engine has done what it was asked for. */
void must(const char *what, enum xm_refusal refusal);

/* At least one byte and at most size; all of size. */
size_t read_some(int socket, uint8_t *bytes, size_t size);
void read_all(int socket, uint8_t *bytes, size_t size);

/* A request, in little-endian order. write_request puts its length into it. */
struct request {
    uint8_t bytes[64];
    size_t size;
};

struct request request(uint8_t opcode, uint8_t detail);
void cards(struct request *r, unsigned width, const uint32_t *numbers, size_t count);
void padded(struct request *r, const char *text);
void write_request(int socket, struct request *r);

/* Numbers of 16 and of 32 bits for a request: CARD16(&r, 240, 160). */
#define NUMBERS(...) (const uint32_t[]){__VA_ARGS__}, sizeof((const uint32_t[]){__VA_ARGS__}) / sizeof(uint32_t)
#define CARD16(r, ...) cards(r, 2, NUMBERS(__VA_ARGS__))
#define CARD32(r, ...) cards(r, 4, NUMBERS(__VA_ARGS__))

/* Fields of a packet, in little-endian order. */
uint16_t get16(const uint8_t *at);
uint32_t get32(const uint8_t *at);

#endif
