/* C with the form of r6_kernels: from the last source down, P and Q of four vectors in registers. */
#include "bench.h"
#include <immintrin.h>

#ifdef __AVX512BW__
typedef __m512i vector;
#define LOAD(at) _mm512_loadu_si512(at)
#define STORE(at, v) _mm512_storeu_si512(at, v)
#define XOR _mm512_xor_si512
#define ADD _mm512_add_epi8
#define SHUFFLE _mm512_shuffle_epi8
#define SPLAT _mm512_set1_epi8
#elif defined(__AVX2__)
typedef __m256i vector;
#define LOAD(at) _mm256_loadu_si256((const vector *)(at))
#define STORE(at, v) _mm256_storeu_si256((vector *)(at), v)
#define XOR _mm256_xor_si256
#define ADD _mm256_add_epi8
#define SHUFFLE _mm256_shuffle_epi8
#define SPLAT _mm256_set1_epi8
#else
typedef __m128i vector;
#define LOAD(at) _mm_loadu_si128((const vector *)(at))
#define STORE(at, v) _mm_storeu_si128((vector *)(at), v)
#define XOR _mm_xor_si128
#define ADD _mm_add_epi8
#define SHUFFLE _mm_shuffle_epi8
#define SPLAT _mm_set1_epi8
#endif

enum { VECTORS = 4, STEP = VECTORS * sizeof(vector) };

static size_t ways(const struct task *task) { return task->work == PARITY; }

static void choose(const struct task *task, size_t way)
{
    (void)task;
    (void)way;
}

/* Q stands with 0b added: a shuffle of 1d gives 1d where the top bit is clear, and 0b is its own double but for that 1d */
static void parity(const struct task *task)
{
    const vector shift = SPLAT(0x0b), rest = SPLAT(0x1d);
    for (size_t at = 0; at < LENGTH; at += STEP) {
        vector p[VECTORS], q[VECTORS];
#pragma GCC unroll 4
        for (size_t k = 0; k < VECTORS; k++) {
            p[k] = XOR(rest, rest);
            q[k] = shift;
        }
        for (size_t i = task->m; i-- > 0;) {
            const unsigned char *source = task->blocks[i] + at;
#pragma GCC unroll 4
            for (size_t k = 0; k < VECTORS; k++) {
                vector bytes = LOAD(source + k * sizeof(vector));
                p[k] = XOR(p[k], bytes);
                q[k] = XOR(XOR(ADD(q[k], q[k]), SHUFFLE(rest, q[k])), bytes);
            }
        }
#pragma GCC unroll 4
        for (size_t k = 0; k < VECTORS; k++) {
            STORE(task->made[0] + at + k * sizeof(vector), p[k]);
            STORE(task->made[1] + at + k * sizeof(vector), XOR(q[k], shift));
        }
    }
}

const struct library c_lanes = {"C", ways, choose, parity};
