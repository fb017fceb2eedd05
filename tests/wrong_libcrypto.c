/* Loaded before desk-signer (LD_PRELOAD). It changes the last octet of each signature of libcrypto, or the first one if the variable NO_FORM is
   set. If the process computes a nonce before a message comes, this fails if the variable NO_NONCES is set, and else ends the process. */
#define _GNU_SOURCE
#include <dlfcn.h>
#include <stdlib.h>

#include <openssl/ec.h>
#include <openssl/evp.h>

static int changed(int is_signed, unsigned char *signature, const size_t *length) {
    if (is_signed == 1 && signature)
        signature[getenv("NO_FORM") ? 0 : *length - 1] ^= 1;
    return is_signed;
}

int EVP_PKEY_sign(EVP_PKEY_CTX *context, unsigned char *signature, size_t *length, const unsigned char *digest, size_t size) {
    int (*real)(EVP_PKEY_CTX *, unsigned char *, size_t *, const unsigned char *, size_t) = dlsym(RTLD_NEXT, "EVP_PKEY_sign");
    return changed(real(context, signature, length, digest, size), signature, length);
}

int EVP_DigestSign(EVP_MD_CTX *context, unsigned char *signature, size_t *length, const unsigned char *message, size_t size) {
    int (*real)(EVP_MD_CTX *, unsigned char *, size_t *, const unsigned char *, size_t) = dlsym(RTLD_NEXT, "EVP_DigestSign");
    return changed(real(context, signature, length, message, size), signature, length);
}

int ECDSA_sign_setup(EC_KEY *key, BN_CTX *context, BIGNUM **inverse, BIGNUM **r) {
    (void)key, (void)context, (void)inverse, (void)r;
    if (!getenv("NO_NONCES"))
        abort();
    return 0;
}
