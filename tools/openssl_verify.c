/* Checks one signature so often by OpenSSL, for tools/bench-signatures. Arguments: the files of the public key (PEM), the message and the
   signature; the digest, or - for Ed25519; 1 for PSS with a salt as long as the digest, else 0; how often. Exit status 0 if each check
   succeeds. */
#include <openssl/evp.h>
#include <openssl/pem.h>
#include <openssl/rsa.h>
#include <stdio.h>
#include <stdlib.h>
#include <string.h>

static size_t read_file(const char *path, unsigned char *room, size_t most)
{
    FILE *file = fopen(path, "rb");
    size_t length = file ? fread(room, 1, most, file) : 0;
    if (file)
        fclose(file);
    return length;
}

static int verify(EVP_PKEY *key, const EVP_MD *digest, int is_pss, const unsigned char *message, size_t message_length,
                  const unsigned char *signature, size_t signature_length)
{
    EVP_MD_CTX *context = EVP_MD_CTX_new();
    EVP_PKEY_CTX *of_key = NULL;
    int good = EVP_DigestVerifyInit(context, &of_key, digest, NULL, key) == 1;
    if (good && is_pss)
        good = EVP_PKEY_CTX_set_rsa_padding(of_key, RSA_PKCS1_PSS_PADDING) == 1
               && EVP_PKEY_CTX_set_rsa_pss_saltlen(of_key, RSA_PSS_SALTLEN_DIGEST) == 1;
    good = good && EVP_DigestVerify(context, signature, signature_length, message, message_length) == 1;
    EVP_MD_CTX_free(context);
    return good;
}

int main(int count, char **arguments)
{
    static unsigned char message[65536], signature[2048];
    if (count != 7)
        return 2;
    FILE *file = fopen(arguments[1], "rb");
    EVP_PKEY *key = file ? PEM_read_PUBKEY(file, NULL, NULL, NULL) : NULL;
    int has_digest = strcmp(arguments[4], "-") != 0;
    const EVP_MD *digest = has_digest ? EVP_get_digestbyname(arguments[4]) : NULL;
    size_t message_length = read_file(arguments[2], message, sizeof message);
    size_t signature_length = read_file(arguments[3], signature, sizeof signature);
    if (!key || (has_digest && !digest))
        return 2;
    for (long left = atol(arguments[6]); left > 0; left--)
        if (!verify(key, digest, arguments[5][0] == '1', message, message_length, signature, signature_length))
            return 1;
    return 0;
}
