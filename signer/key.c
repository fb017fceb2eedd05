/* Reads keys in PEM files, and in PKCS #11 tokens by libp11's engine. Signs with them, and verifies the signatures. */
/* Debian 12 has no PKCS #11 provider of OpenSSL, and engines are deprecated. */
#define OPENSSL_SUPPRESS_DEPRECATED
#include <fcntl.h>
#include <stdio.h>
#include <string.h>
#include <unistd.h>

#include <openssl/engine.h>
#include <openssl/err.h>
#include <openssl/pem.h>
#include <openssl/rsa.h>

#include "signer.h"

enum { LONGEST_KEY_FILE = 65536, LEAST_RSA_BITS = 2048 };

/* Writes what failed, and libcrypto's reason if it has one. */
static void explain(char *why, const char *what) {
    const char *reason = ERR_reason_error_string(ERR_peek_last_error());
    (void)snprintf(why, REASON, "%s%s%s", what, reason ? ": " : "", reason ? reason : "");
    ERR_clear_error();
}

X509 *read_certificate(const char *path, char *why) {
    BIO *file = BIO_new_file(path, "rb");
    X509 *certificate = file ? PEM_read_bio_X509(file, NULL, NULL, NULL) : NULL;
    if (file != NULL && certificate == NULL && BIO_reset(file) == 0)
        certificate = d2i_X509_bio(file, NULL);
    if (certificate == NULL)
        explain(why, "it can't be read");
    BIO_free(file);
    ERR_clear_error();
    return certificate;
}

/* Gives libcrypto the passphrase of a PEM file, so that it doesn't ask for one at the terminal. */
static int give_passphrase(char *to, int room, int is_written, void *passphrase) {
    size_t length = passphrase ? strlen(passphrase) : 0;
    (void)is_written;
    if (length == 0 || length > (size_t)room)
        return -1;
    memcpy(to, passphrase, length);
    return (int)length;
}

bool read_file(const char *path, char *to, size_t room, size_t *length, char *why) {
    int file = open(path, O_RDONLY | O_CLOEXEC);
    ssize_t got = file < 0 ? -1 : 1;
    for (*length = 0; got > 0 && *length < room; *length += got > 0 ? (size_t)got : 0)
        got = read(file, to + *length, room - *length);
    bool is_read = got == 0;
    (void)snprintf(why, REASON, got < 0 ? "it can't be read: %m" : "it has more than %zu bytes", room - 1);
    if (file >= 0)
        (void)close(file);
    return is_read;
}

static EVP_PKEY *read_key_file(const char *path, char *passphrase, char *why) {
    static char text[LONGEST_KEY_FILE + 1];
    size_t length;
    EVP_PKEY *key = NULL;
    if (read_file(path, text, sizeof text, &length, why)) {
        BIO *memory = BIO_new_mem_buf(text, (int)length);
        key = memory ? PEM_read_bio_PrivateKey(memory, NULL, give_passphrase, passphrase) : NULL;
        if (key == NULL)
            explain(why, passphrase ? "no key in PEM that the passphrase opens" : "no key in PEM without a passphrase");
        BIO_free(memory);
    }
    OPENSSL_cleanse(text, sizeof text);
    return key;
}

bool is_token(const char *key) {
    return strncmp(key, "pkcs11:", 7) == 0;
}

/* The engine is kept until the process ends, since its key needs it. */
static EVP_PKEY *read_token_key(const char *uri, char *pin, char *why) {
    ENGINE *engine = ENGINE_by_id("pkcs11");
    if (engine == NULL) {
        explain(why, "no engine pkcs11 (Debian: libengine-pkcs11-openssl)");
        return NULL;
    }
    bool is_ready = (!pin || ENGINE_ctrl_cmd_string(engine, "PIN", pin, 0)) && ENGINE_init(engine);
    EVP_PKEY *key = is_ready ? ENGINE_load_private_key(engine, uri, NULL, NULL) : NULL;
    if (key == NULL)
        explain(why, "the token gives no such key: check the URI, PKCS11_MODULE_PATH and --passphrase-file");
    return key;
}

EVP_PKEY *read_key(const char *key, char *passphrase, char *why) {
    return is_token(key) ? read_token_key(key, passphrase, why) : read_key_file(key, passphrase, why);
}

/* The name of a key's algorithm, or NULL if the desk has none for it; `digest` gets the name of its digest, or NULL for Ed25519. */
static const char *algorithm_of(const EVP_PKEY *key, const char **digest) {
    char curve[32] = "";
    *digest = "SHA256";
    switch (EVP_PKEY_get_base_id(key)) {
    case EVP_PKEY_RSA:
        return EVP_PKEY_get_bits(key) >= LEAST_RSA_BITS && EVP_PKEY_get_size(key) <= LONGEST_SIGNATURE ? "rsa-sha256" : NULL;
    case EVP_PKEY_ED25519:
        *digest = NULL;
        return "ed25519";
    case EVP_PKEY_EC:
        if (EVP_PKEY_get_group_name(key, curve, sizeof curve, NULL) && strcmp(curve, SN_X9_62_prime256v1) == 0)
            return "ecdsa-sha256";
        *digest = "SHA384";
        return strcmp(curve, SN_secp384r1) == 0 ? "ecdsa-sha384" : NULL;
    default:
        return NULL;
    }
}

/* A context that signs or verifies digests, with RSA by PKCS #1 v1.5; NULL if libcrypto can't with this key. */
static EVP_PKEY_CTX *context_of(EVP_PKEY *key, int (*begin)(EVP_PKEY_CTX *), const EVP_MD *digest) {
    EVP_PKEY_CTX *context = EVP_PKEY_CTX_new(key, NULL);
    if (context && begin(context) == 1 && EVP_PKEY_CTX_set_signature_md(context, digest) == 1 &&
        (EVP_PKEY_get_base_id(key) != EVP_PKEY_RSA || EVP_PKEY_CTX_set_rsa_padding(context, RSA_PKCS1_PADDING) == 1))
        return context;
    EVP_PKEY_CTX_free(context);
    return NULL;
}

/* The key for drawing nonces ahead; NULL for a key in a token, and for one that is not of ECDSA. */
static EC_KEY *drawing_key(EVP_PKEY *key) {
    EC_KEY *it = EVP_PKEY_get_base_id(key) == EVP_PKEY_EC ? EVP_PKEY_get1_EC_KEY(key) : NULL;
    if (it == NULL || EC_KEY_get_method(it) == EC_KEY_OpenSSL())
        return it;
    EC_KEY_free(it);
    return NULL;
}

bool use_key(struct signer *signer, EVP_PKEY *key, bool draws_ahead, char *why) {
    const char *digest;
    *signer = (struct signer){.key = key, .algorithm = algorithm_of(key, &digest)};
    if (signer->algorithm == NULL) {
        explain(why, "the key is none of P-256, P-384, RSA of 2,048 bits or more, and Ed25519");
        return false;
    }
    signer->digest = digest ? EVP_MD_fetch(NULL, digest, NULL) : NULL;
    signer->digesting = EVP_MD_CTX_new();
    signer->signing = signer->digest ? context_of(key, EVP_PKEY_sign_init, signer->digest) : NULL;
    signer->drawing = draws_ahead ? drawing_key(key) : NULL;
    if (signer->digesting && (signer->signing || !digest))
        return true;
    explain(why, "libcrypto doesn't sign with this key");
    return false;
}

bool verify_by(struct signer *signer, const struct issuer *issuer, char *why) {
    signer->certified = X509_get_pubkey(issuer->certificate);
    if (signer->certified == NULL || EVP_PKEY_eq(signer->certified, signer->key) != 1) {
        explain(why, "it is the certificate of another key");
        return false;
    }
    signer->verifying = signer->digest ? context_of(signer->certified, EVP_PKEY_verify_init, signer->digest) : NULL;
    if (signer->verifying || !signer->digest)
        return true;
    explain(why, "libcrypto doesn't verify with its key");
    return false;
}

bool wants_nonce(const struct signer *signer) {
    return signer->drawing && signer->drawn < NONCES;
}

static void forget(struct nonce *nonce) {
    BN_clear_free(nonce->inverse);
    BN_clear_free(nonce->r);
    *nonce = (struct nonce){NULL, NULL};
}

void forget_nonces(struct signer *signer) {
    while (signer->drawn > 0)
        forget(&signer->nonces[--signer->drawn]);
}

/* If a nonce can't be drawn, no more are drawn ahead. */
void draw_nonce(struct signer *signer) {
    struct nonce *next = &signer->nonces[signer->drawn];
    if (ECDSA_sign_setup(signer->drawing, NULL, &next->inverse, &next->r) == 1) {
        signer->drawn++;
        return;
    }
    ERR_clear_error();
    forget_nonces(signer);
    signer->drawing = NULL;
}

/* Signs a digest with a nonce that was drawn ahead. */
static bool sign_with_nonce(struct signer *signer, struct octets digest, unsigned char *signature, size_t *length) {
    struct nonce *nonce = &signer->nonces[--signer->drawn];
    unsigned got = 0;
    bool is_signed = ECDSA_sign_ex(0, digest.begin, (int)digest.length, signature, &got, nonce->inverse, nonce->r, signer->drawing) == 1;
    forget(nonce);
    *length = got;
    return is_signed;
}

/* Signs with ECDSA or RSA. The message is digested once for the signature and its verification. */
static size_t sign_digest(struct signer *signer, struct octets message, unsigned char *signature, bool *is_verified) {
    unsigned char digest[EVP_MAX_MD_SIZE];
    unsigned digest_length = 0;
    size_t length = LONGEST_SIGNATURE;
    if (EVP_DigestInit_ex2(signer->digesting, signer->digest, NULL) != 1 || EVP_DigestUpdate(signer->digesting, message.begin, message.length) != 1 ||
        EVP_DigestFinal_ex(signer->digesting, digest, &digest_length) != 1)
        return 0;
    if (signer->drawn > 0 ? !sign_with_nonce(signer, (struct octets){digest, digest_length}, signature, &length)
                          : EVP_PKEY_sign(signer->signing, signature, &length, digest, digest_length) != 1)
        return 0;
    *is_verified = !signer->verifying || EVP_PKEY_verify(signer->verifying, signature, length, digest, digest_length) == 1;
    return length;
}

/* Signs with Ed25519, which reads the whole message twice (RFC 8032 5.1.6). */
static size_t sign_whole(struct signer *signer, struct octets message, unsigned char *signature, bool *is_verified) {
    EVP_MD_CTX *context = signer->digesting;
    size_t length = LONGEST_SIGNATURE;
    if (EVP_MD_CTX_reset(context) != 1 || EVP_DigestSignInit(context, NULL, NULL, NULL, signer->key) != 1 ||
        EVP_DigestSign(context, signature, &length, message.begin, message.length) != 1)
        return 0;
    *is_verified = !signer->certified || (EVP_MD_CTX_reset(context) == 1 && EVP_DigestVerifyInit(context, NULL, NULL, NULL, signer->certified) == 1 &&
                                          EVP_DigestVerify(context, signature, length, message.begin, message.length) == 1);
    return length;
}

size_t sign_message(struct signer *signer, struct octets message, unsigned char *signature, char *why) {
    bool is_verified = false;
    size_t length = signer->digest ? sign_digest(signer, message, signature, &is_verified) : sign_whole(signer, message, signature, &is_verified);
    if (length == 0)
        explain(why, "libcrypto gives no signature");
    else if (!is_verified)
        explain(why, "its signature does not verify by the certificate");
    return is_verified ? length : 0;
}
