/* desk-signer: signs for `desk` with a key in memory or in a PKCS #11 token (docs/OPERATIONS.md, "Signatures").
 * only_ours.c: which messages are signed. key.c: reads keys, signs, verifies. desk-signer.c: command line, privileges, connections. */
#ifndef SIGNER_H
#define SIGNER_H

#include <stdbool.h>
#include <stddef.h>

#include <openssl/ec.h>
#include <openssl/evp.h>
#include <openssl/x509v3.h>

/* REASON: the room for one line about why a message is refused or a key can't be used. LONGEST_SIGNATURE: the most octets that the desk accepts. */
enum { REASON = 256, LONGEST_SIGNATURE = 4096 };
/* The most nonces that are drawn ahead. */
enum { NONCES = 8 };

struct octets {
    const unsigned char *begin;
    size_t length;
};

struct short_octets {
    size_t length;
    unsigned char octets[96];
};

/* A CA or a responder: its certificate, and the octets that its CRLs and OCSP answers have for it. */
struct issuer {
    X509 *certificate;
    struct octets name, algorithm;
    /* The authorityKeyIdentifier extensions that a CRL may have (RFC 5280 5.2.1). */
    struct short_octets key_identifiers[2];
    /* The beginnings of a CertID of this issuer (RFC 6960 4.1.1), one for each of the hash algorithms. */
    struct short_octets cert_ids[4];
    /* The SHA-1 of the key, SHA_DIGEST_LENGTH octets, inside `cert_ids`. */
    const unsigned char *key_hash;
};

/* Reads the certificate, which the issuer keeps. False with the reason in `why` if it can't be an issuer's. */
bool make_issuer(struct issuer *issuer, X509 *certificate, char *why);
/* Whether a message is a CRL or an OCSP answer of the issuer; with a responder, whether it is that responder's OCSP answer about certificates of the
 * issuer. If not, `why` gets the reason. */
bool is_ours(struct octets message, const struct issuer *issuer, const struct issuer *responder, char *why);

/* The parts of an ECDSA signature that depend on its nonce k alone: k^-1, and r (FIPS 186-5 6.4.1). A nonce signs at most one message. */
struct nonce {
    BIGNUM *inverse, *r;
};

struct signer {
    const char *algorithm;
    EVP_PKEY *key, *certified;
    EVP_MD *digest;
    EVP_MD_CTX *digesting;
    EVP_PKEY_CTX *signing, *verifying;
    /* The key for nonces that are drawn ahead, or NULL if none are; the first `drawn` of `nonces` are drawn. */
    EC_KEY *drawing;
    struct nonce nonces[NONCES];
    size_t drawn;
};

/* Reads a file or a pipe up to its end. False with the reason if it can't be read, or doesn't have fewer bytes than `room`. */
bool read_file(const char *path, char *to, size_t room, size_t *length, char *why);
/* The certificate in a file, PEM or DER; NULL with the reason if it can't be read. */
X509 *read_certificate(const char *path, char *why);
bool is_token(const char *key);
/* The key in a PEM file, or in a token by its URI (RFC 7512); NULL with the reason if there is none. `passphrase` may be NULL. */
EVP_PKEY *read_key(const char *key, char *passphrase, char *why);
bool use_key(struct signer *signer, EVP_PKEY *key, bool draws_ahead, char *why);
/* From now on, verifies each signature with the key of the issuer's certificate. False with the reason if that key is another or can't verify. */
bool verify_by(struct signer *signer, const struct issuer *issuer, char *why);
/* With ECDSA and a key in memory, a nonce can be drawn before its message comes, since nearly all of a signature's work depends on the nonce alone. */
bool wants_nonce(const struct signer *signer);
void draw_nonce(struct signer *signer);
void forget_nonces(struct signer *signer);
/* Signs a message, and returns the signature's length, or 0 with the reason. */
size_t sign_message(struct signer *signer, struct octets message, unsigned char *signature, char *why);

#endif
