/* Calls signer/only_ours.c without a signer: for a fuzzer, or for messages on standard input, each after its length in four octets. For each of these
 * it prints 1 if the message is accepted, and 0 if it is refused. CA and RESPONDER in the environment name the files of the certificates. */
#include <stdint.h>
#include <stdio.h>
#include <stdlib.h>

#include "../signer/signer.h"

static struct issuer issuer, responder;
static char why[REASON];

static void load(struct issuer *to, const char *path) {
    X509 *certificate = path ? read_certificate(path, why) : NULL;
    if (path && (!certificate || !make_issuer(to, certificate, why))) {
        fprintf(stderr, "%s: %s\n", path, why);
        exit(1);
    }
}

static bool is_accepted(const uint8_t *octets, size_t length) {
    const struct octets message = {octets, length};
    return is_ours(message, &issuer, getenv("RESPONDER") ? &responder : NULL, why);
}

int LLVMFuzzerInitialize(int *count, char ***words);
int LLVMFuzzerInitialize(int *count, char ***words) {
    (void)count, (void)words;
    load(&issuer, getenv("CA"));
    load(&responder, getenv("RESPONDER"));
    return 0;
}

int LLVMFuzzerTestOneInput(const uint8_t *octets, size_t length);
int LLVMFuzzerTestOneInput(const uint8_t *octets, size_t length) {
    (void)is_accepted(octets, length);
    return 0;
}

#ifndef FUZZED
int main(int count, char **words) {
    uint8_t head[4];
    LLVMFuzzerInitialize(&count, &words);
    while (fread(head, 1, 4, stdin) == 4) {
        size_t length = (size_t)head[0] << 24 | (size_t)head[1] << 16 | (size_t)head[2] << 8 | head[3];
        uint8_t *octets = malloc(length + 1);
        if (!octets || fread(octets, 1, length, stdin) != length)
            return 1;
        putchar(is_accepted(octets, length) ? '1' : '0');
        free(octets);
    }
    return 0;
}
#endif
