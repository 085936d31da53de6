/* issue.c: a root and a server beneath it, signed by keys of libcrypto and verified by it, in one process.
 * At the top of a clone, once `rt lib` made crates/shelf_c/out/libshelf_c.a, with the kit's folder as KIT:
 * cc -I include examples/c/issue.c crates/shelf_c/out/libshelf_c.a $KIT/c/liblibc_c.a -lcrypto -o issue && ./issue */
#include "shelf.h"
#include <openssl/evp.h>
#include <openssl/pem.h>
#include <openssl/x509v3.h>
#include <stdlib.h>
#include <string.h>

static const char root_order[] =
    "kind = \"certificate\"\nprofile = \"root\"\nsubject = [\"O=Example\", \"CN=Example Root\"]\n"
    "start = \"2026-01-01T00:00:00Z\"\ndays = 3650\nserial = \"01\"\n";
static const char server_order[] =
    "kind = \"certificate\"\nprofile = \"server\"\ncommon_name = \"www.lab\"\nalt_names = [\"dns:www.lab\"]\n"
    "start = \"2026-01-01T00:00:00Z\"\ndays = 3650\nserial = \"02\"\n";

static uint8_t answer[1 << 16];

static void want(int holds, const char *what) {
    if (holds) return;
    fprintf(stderr, "issue: %s\n", what);
    exit(1);
}

/* How many octets the answer has, in `answer`; it writes the lines after them. */
static size_t length_of(struct shelf_outcome outcome) {
    if (outcome.status <= SHELF_REFUSED) fwrite(answer + outcome.length, 1, outcome.told, stderr);
    want(outcome.status == SHELF_DONE, "there is no answer");
    return outcome.length;
}

/* The certificate that the order asks for, of the subject's key, signed by the issuer's. */
static X509 *issued(const char *order, EVP_PKEY *subject, EVP_PKEY *key, X509 *issuer) {
    const uint8_t *order_octets = (const uint8_t *)order;
    uint8_t signature[64];
    size_t size = sizeof signature;
    BIO *input = BIO_new(BIO_s_mem());
    EVP_MD_CTX *signing = EVP_MD_CTX_new();
    want(input && signing && PEM_write_bio_PUBKEY(input, subject), "the input");
    want(!issuer || PEM_write_bio_X509(input, issuer), "the issuer");
    uint8_t *files;
    size_t files_length = (size_t)BIO_get_mem_data(input, (char **)&files);
    size_t length = length_of(shelf_tbs(order_octets, strlen(order), files, files_length, answer, sizeof answer));
    want(EVP_DigestSignInit(signing, NULL, NULL, NULL, key) == 1 && EVP_DigestSign(signing, signature, &size, answer, length) == 1, "the key signs");
    length = length_of(shelf_seal(order_octets, strlen(order), files, files_length, signature, size, answer, sizeof answer));
    want(fwrite(answer, 1, length, stdout) == length, "it is written");
    BIO *text = BIO_new_mem_buf(answer, (int)length);
    X509 *made = PEM_read_bio_X509(text, NULL, NULL, NULL);
    want(made != NULL, "libcrypto reads it");
    BIO_free(text);
    BIO_free(input);
    EVP_MD_CTX_free(signing);
    return made;
}

int main(void) {
    EVP_PKEY *root_key = EVP_PKEY_Q_keygen(NULL, NULL, "ED25519"), *server_key = EVP_PKEY_Q_keygen(NULL, NULL, "ED25519");
    want(root_key && server_key, "keys");
    X509 *root = issued(root_order, root_key, root_key, NULL), *server = issued(server_order, server_key, root_key, root);
    X509_STORE *store = X509_STORE_new();
    X509_STORE_CTX *path = X509_STORE_CTX_new();
    want(store && path && X509_STORE_add_cert(store, root) && X509_STORE_CTX_init(path, store, server, NULL), "a store");
    X509_VERIFY_PARAM *wanted = X509_STORE_CTX_get0_param(path);
    X509_VERIFY_PARAM_set_flags(wanted, X509_V_FLAG_X509_STRICT | X509_V_FLAG_CHECK_SS_SIGNATURE);
    want(X509_VERIFY_PARAM_set1_host(wanted, "www.lab", 0) && X509_STORE_CTX_set_default(path, "ssl_server"), "what is wanted");
    want(X509_verify_cert(path) == 1, X509_verify_cert_error_string(X509_STORE_CTX_get_error(path)));
    X509_STORE_CTX_free(path);
    X509_STORE_free(store);
    X509_free(root);
    X509_free(server);
    EVP_PKEY_free(root_key);
    EVP_PKEY_free(server_key);
    return 0;
}
