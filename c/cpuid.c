/* What the start of keyshow asks the C library, where that is older than glibc 2.33: which instructions the processor has, to refuse one below
 * x86-64-v2. make links it with the prebuilt keyshow. */
#include <stdlib.h>

#if defined(__x86_64__) && (!defined(__GLIBC__) || !__GLIBC_PREREQ(2, 33))
#include <cpuid.h>

/* EAX, EBX, ECX and EDX of a leaf, as the processor has them and as they can be used. */
struct cpuid_feature {
  unsigned int cpuid[4], active[4];
};

/* index is 0 for leaf 1 and 2 for leaf 0x80000001, of which keyshow reads ECX: all of its bits that v2 wants can be used where they are set. */
const struct cpuid_feature *__x86_get_cpuid_feature_leaf(unsigned int index) {
  static struct cpuid_feature feature;
  unsigned int *found = feature.active;
  if (!__get_cpuid(index == 0 ? 1 : 0x80000001, &found[0], &found[1], &found[2], &found[3])) found[2] = 0;
  return &feature;
}
#endif
