/* What the server and its clients send each other: one request at a time, and its answer. */
#ifndef STORE_H
#define STORE_H

#define SERVER 0 /* the guest that is described first */
#define CLIENTS 2
#define KEY 12

/* HELLO is answered by the client's own number, SET and ADD by what stands there then, GET by it too, BYE by nothing */
enum request_kind { HELLO, SET, ADD, GET, BYE };

struct request {
    unsigned kind, value;
    char key[KEY];
};

struct answer {
    unsigned found, value;
};

#endif
