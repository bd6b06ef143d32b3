/* A signer that is started once: for every 32 bytes that it reads it writes their Ed25519 signature, 64 bytes. The key is in a file in PEM.
 * cc -O2 -o signer signer.c -lcrypto; usage: signer KEY
 */
#include <openssl/evp.h>
#include <openssl/pem.h>
#include <stdio.h>
#include <unistd.h>

int main(int count, char **words) {
    FILE *file = count == 2 ? fopen(words[1], "r") : NULL;
    EVP_PKEY *key = file ? PEM_read_PrivateKey(file, NULL, NULL, NULL) : NULL;
    if (!key) return 2;
    unsigned char root[32], signature[64];
    for (;;) {
        for (size_t got = 0; got < sizeof root;) {
            ssize_t more = read(0, root + got, sizeof root - got);
            if (more <= 0) return 0;
            got += more;
        }
        size_t length = sizeof signature;
        EVP_MD_CTX *context = EVP_MD_CTX_new();
        if (EVP_DigestSignInit(context, NULL, NULL, NULL, key) != 1 || EVP_DigestSign(context, signature, &length, root, sizeof root) != 1) return 1;
        EVP_MD_CTX_free(context);
        if (length != sizeof signature || write(1, signature, length) != (ssize_t)length) return 1;
    }
}
