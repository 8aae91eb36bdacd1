// Package verify verifies the signatures of the cipher suites 1 to 7 (RFC 9420, 17.1) by libcrypto.
package verify

/*
#cgo LDFLAGS: -lcrypto
#include <openssl/core_names.h>
#include <openssl/err.h>
#include <openssl/evp.h>
#include <openssl/params.h>

// ec_key returns the public key of an uncompressed point (RFC 9420, 5.1.1), or NULL. libcrypto takes no point that is not on
// the curve.
static EVP_PKEY *ec_key(const char *curve, const unsigned char *key, size_t key_len) {
    EVP_PKEY *made = NULL;
    EVP_PKEY_CTX *ctx = EVP_PKEY_CTX_new_from_name(NULL, "EC", NULL);
    OSSL_PARAM params[] = {
        OSSL_PARAM_construct_utf8_string(OSSL_PKEY_PARAM_GROUP_NAME, (char *)curve, 0),
        OSSL_PARAM_construct_octet_string(OSSL_PKEY_PARAM_PUB_KEY, (void *)key, key_len),
        OSSL_PARAM_construct_end(),
    };
    if (!ctx || key_len == 0 || key[0] != 4 || EVP_PKEY_fromdata_init(ctx) != 1 ||
        EVP_PKEY_fromdata(ctx, &made, EVP_PKEY_PUBLIC_KEY, params) != 1)
        made = NULL;
    EVP_PKEY_CTX_free(ctx);
    return made;
}

static EVP_PKEY *public_key(unsigned suite, const unsigned char *key, size_t key_len, const EVP_MD **hash) {
    *hash = NULL;
    switch (suite) {
    case 1:
    case 3:
        return EVP_PKEY_new_raw_public_key(EVP_PKEY_ED25519, NULL, key, key_len);
    case 4:
    case 6:
        return EVP_PKEY_new_raw_public_key(EVP_PKEY_ED448, NULL, key, key_len);
    case 2:
        *hash = EVP_sha256();
        return ec_key("P-256", key, key_len);
    case 5:
        *hash = EVP_sha512();
        return ec_key("P-521", key, key_len);
    case 7:
        *hash = EVP_sha384();
        return ec_key("P-384", key, key_len);
    }
    return NULL;
}

// is_good returns 1 or 0, or -1 if memory ran out, so that nothing is known of the signature.
static int is_good(unsigned suite, const unsigned char *key, size_t key_len, const unsigned char *content,
                   size_t content_len, const unsigned char *signature, size_t signature_len) {
    const EVP_MD *hash;
    EVP_PKEY *pkey;
    EVP_MD_CTX *ctx;
    unsigned long error;
    int good;
    ERR_clear_error();
    pkey = public_key(suite, key, key_len, &hash);
    ctx = EVP_MD_CTX_new();
    good = pkey && ctx && EVP_DigestVerifyInit(ctx, NULL, hash, NULL, pkey) == 1 &&
           EVP_DigestVerify(ctx, signature, signature_len, content, content_len) == 1;
    if (!ctx)
        good = -1;
    while ((error = ERR_get_error()) != 0)
        if (good == 0 && ERR_GET_REASON(error) == ERR_R_MALLOC_FAILURE)
            good = -1;
    EVP_MD_CTX_free(ctx);
    EVP_PKEY_free(pkey);
    return good;
}
*/
import "C"

import (
	"errors"
	"runtime"
	"sync"
	"sync/atomic"
	"unsafe"

	"mlscheckd/internal/follow"
)

// ErrMemory says that memory ran out, so that nothing is known of a signature.
var ErrMemory = errors.New("no memory to verify a signature")

// IsGood says whether a signature is good. One of another cipher suite than 1 to 7 is not.
func IsGood(s follow.Signature) (bool, error) {
	switch C.is_good(C.uint(s.Suite), at(s.Key), C.size_t(len(s.Key)), at(s.Content), C.size_t(len(s.Content)),
		at(s.Signature), C.size_t(len(s.Signature))) {
	case 1:
		return true, nil
	case 0:
		return false, nil
	}
	return false, ErrMemory
}

var noBytes [1]byte

// at returns a pointer that is not nil, also if there are no bytes.
func at(data []byte) *C.uchar {
	if len(data) == 0 {
		return (*C.uchar)(unsafe.Pointer(&noBytes[0]))
	}
	return (*C.uchar)(unsafe.Pointer(&data[0]))
}

// few is how many signatures one goroutine verifies alone.
const few = 16

// Good returns the receipts of the good ones among the signatures, in their order.
func Good(listed []follow.Signature) ([]follow.Receipt, error) {
	good, faults := make([]bool, len(listed)), make([]error, len(listed))
	var next atomic.Int64
	work := func() {
		for i := next.Add(1) - 1; i < int64(len(listed)); i = next.Add(1) - 1 {
			good[i], faults[i] = IsGood(listed[i])
		}
	}
	var all sync.WaitGroup
	for i := 1; i < runtime.GOMAXPROCS(0) && len(listed) > few; i++ {
		all.Add(1)
		go func() {
			defer all.Done()
			work()
		}()
	}
	work()
	all.Wait()
	receipts := make([]follow.Receipt, 0, len(listed))
	for i, s := range listed {
		if faults[i] != nil {
			return nil, faults[i]
		}
		if good[i] {
			receipts = append(receipts, s.Receipt)
		}
	}
	return receipts, nil
}
