/*
 * The steps of the registries' runs, for struct run. The file that includes this
 * defines KIND, the word that its calls begin with.
 */
#define JOIN(kind, name) kind##_##name
#define JOINED(kind, name) JOIN(kind, name)
#define OWN(name) JOINED(KIND, name)

/* The opening's number: slots, or 0 where it has none. */
#define OPEN(number) {OWN(open), {number}, 0, 0, 0, 0}
#define R(entry, subject, wake) {OWN(register), {entry, subject}, 0, wake, 0, 0}
#define R_REFUSED(entry, subject, number) {OWN(register), {entry, subject}, REFUSES(number)}
#define U(entry, wake) {OWN(unregister), {entry}, 0, wake, 0, 0}
#define U_REFUSED(entry, number) {OWN(unregister), {entry}, REFUSES(number)}
#define START(subject, found) {OWN(hub_push_start), {subject}, 0, found, 0, 0}
#define START_REFUSED(subject, number) {OWN(hub_push_start), {subject}, REFUSES(number)}
#define NAMES(entry, more) {OWN(hub_push_next), {0}, 0, 1, entry, more}
#define NAMES_NONE {OWN(hub_push_next), {0}, 0, 0, 0, 0}
#define END {NULL, {0}, 0, 0, 0, 0}
