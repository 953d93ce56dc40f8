/* CAN_J1939: names, and the addresses that they claim. a and c are J1939 sockets on can0. b is a raw socket on can1
 * that plays the other nodes. A claimed address becomes valid if no other node claims it within 250 milliseconds. */
#include "j1939.h"

#define LINE b = line()
#define CLAIMED 300
CASE(send_unclaimed, a = named(OWN_NAME, OWN), send_to(a, OTHER, GROUP, 1))
CASE(send_claim, a = broadcast(named(OWN_NAME, OWN)), LINE, claim(a, OWN_NAME, OWN), take(b, 1),
     send_to(a, OTHER, GROUP, 1))
CASE(send_claimed, a = broadcast(named(OWN_NAME, OWN)), LINE, claim(a, OWN_NAME, OWN), pass(CLAIMED),
     send_to(a, OTHER, GROUP, 1), take(b, 2))
CASE(send_claim_too_early, a = broadcast(named(OWN_NAME, OWN)), LINE, claim(a, OWN_NAME, OWN), pass(150),
     send_to(a, OTHER, GROUP, 1), take(b, 1))
CASE(claim_without_name, a = broadcast(node(OWN)), claim(a, OWN_NAME, OWN))
CASE(claim_other_name, a = broadcast(named(OWN_NAME, OWN)), claim(a, OTHER_NAME, OWN))
CASE(claim_short, a = broadcast(named(OWN_NAME, OWN)), DO(sendto(a, "1234567", 7, 0, WAY("can0", 0, CLAIM, ALL))))
CASE(claim_no_address, a = broadcast(named(OWN_NAME, ALL)), claim(a, OWN_NAME, ALL))
CASE(claim_to_one, a = named(OWN_NAME, OWN), DO(sendto(a, &(uint64_t){OWN_NAME}, 8, 0, WAY("can0", 0, CLAIM, OTHER))))
CASE(claim_without_broadcast, a = named(OWN_NAME, OWN), claim(a, OWN_NAME, OWN))
CASE(claim_idle, a = broadcast(named(OWN_NAME, J1939_IDLE_ADDR)), LINE, claim(a, OWN_NAME, J1939_IDLE_ADDR), take(b, 1),
     pass(CLAIMED), send_to(a, OTHER, GROUP, 1))
CASE(request_unclaimed, a = broadcast(named(OWN_NAME, OWN)), LINE, request_claims(a), take(b, 1))
CASE(request_other, a = broadcast(named(OWN_NAME, OWN)), DO(sendto(a, "\0\xED\0", 3, 0, WAY("can0", 0, REQUEST, ALL))))
CASE(receive_claim, a = broadcast(node(OWN)), LINE, other_claims(b, OTHER_NAME, OTHER), receive(a))
CASE(receive_claim_of_none, a = broadcast(node(OWN)), LINE, other_claims(b, 0, OTHER), receive(a))
CASE(receive_short_claim, a = broadcast(node(OWN)), LINE, HEARS(b, 0x18EEFF90, 1, 2), receive(a))
CASE(receive_named, a = node(OWN), LINE, other_claims(b, OTHER_NAME, OTHER), HEARS(b, 0x19238090, 1), receive(a),
     pass(CLAIMED), HEARS(b, 0x19238090, 2), receive(a))
CASE(receive_to_name, a = broadcast(named(OWN_NAME, OWN)), LINE, HEARS(b, 0x19238090, 1), receive(a),
     claim(a, OWN_NAME, OWN), pass(CLAIMED), HEARS(b, 0x19238090, 2), receive(a))
CASE(send_to_name_unknown, a = node(OWN), send_to_name(a, OTHER_NAME, GROUP, 1))
CASE(send_to_name_claimed, a = node(OWN), LINE, other_claims(b, OTHER_NAME, OTHER), pass(CLAIMED),
     send_to_name(a, OTHER_NAME, GROUP, 1), take(b, 1))
CASE(send_to_name_claimed_before_bind, c = node(THIRD), LINE, other_claims(b, OTHER_NAME, OTHER), pass(CLAIMED),
     a = node(OWN), send_to_name(a, OTHER_NAME, GROUP, 1), take(b, 1))
CASE(send_to_name_after_last_close, a = node(OWN), LINE, other_claims(b, OTHER_NAME, OTHER), pass(CLAIMED), close(a),
     a = node(OWN), send_to_name(a, OTHER_NAME, GROUP, 1))
CASE(name_moves, a = node(OWN), LINE, other_claims(b, OTHER_NAME, OTHER), pass(CLAIMED),
     other_claims(b, OTHER_NAME, THIRD), pass(CLAIMED), send_to_name(a, OTHER_NAME, GROUP, 1), take(b, 1))
CASE(name_gives_up, a = broadcast(node(OWN)), LINE, other_claims(b, OTHER_NAME, OTHER), receive(a), pass(CLAIMED),
     other_claims(b, OTHER_NAME, J1939_IDLE_ADDR), receive(a), send_to_name(a, OTHER_NAME, GROUP, 1))
CASE(lower_name_wins, a = node(OWN), LINE, other_claims(b, OTHER_NAME, OTHER), pass(CLAIMED),
     other_claims(b, LOW_NAME, OTHER), pass(CLAIMED), send_to_name(a, OTHER_NAME, GROUP, 1),
     send_to_name(a, LOW_NAME, GROUP, 2), take(b, 1))
CASE(higher_name_loses, a = node(OWN), LINE, other_claims(b, LOW_NAME, OTHER), pass(CLAIMED),
     other_claims(b, OTHER_NAME, OTHER), pass(CLAIMED), send_to_name(a, OTHER_NAME, GROUP, 1),
     send_to_name(a, LOW_NAME, GROUP, 2), take(b, 1))
CASE(loser_claims_again, a = node(OWN), LINE, other_claims(b, LOW_NAME, OTHER), pass(CLAIMED),
     other_claims(b, OTHER_NAME, OTHER), other_claims(b, LOW_NAME, THIRD), pass(CLAIMED),
     other_claims(b, OTHER_NAME, OTHER), pass(CLAIMED), send_to_name(a, OTHER_NAME, GROUP, 1),
     send_to_name(a, LOW_NAME, GROUP, 2), take(b, 1))
CASE(own_claim_contested, a = broadcast(named(OTHER_NAME, OWN)), LINE, claim(a, OTHER_NAME, OWN), pass(CLAIMED),
     other_claims(b, LOW_NAME, OWN), receive(a), send_to(a, OTHER, GROUP, 1))
CASE(own_claim_defended, a = broadcast(named(LOW_NAME, OWN)), LINE, claim(a, LOW_NAME, OWN), pass(CLAIMED),
     other_claims(b, OTHER_NAME, OWN), receive(a), send_to(a, OTHER, GROUP, 1), take(b, 2))
CASE(own_claim_of_other, a = broadcast(named(OWN_NAME, OWN)), LINE, claim(a, OWN_NAME, OWN), pass(CLAIMED),
     DO(bind(a, WAY("can0", OWN_NAME, NO_GROUP, THIRD))), claim(a, OWN_NAME, THIRD), send_to(a, OTHER, GROUP, 1),
     pass(CLAIMED), send_to(a, OTHER, GROUP, 1), take(b, 3))
CASE(other_socket_claims, a = broadcast(named(OWN_NAME, OWN)), c = named(OWN_NAME, ALL), LINE, claim(a, OWN_NAME, OWN),
     pass(CLAIMED), send_to(c, OTHER, GROUP, 1), take(b, 2))
CASE(claim_of_interface, a = broadcast(named(OWN_NAME, OWN)), c = broadcast(node(OTHER)), claim(a, OWN_NAME, OWN),
     receive(c), pass(CLAIMED), send_to_name(c, OWN_NAME, GROUP, 2), receive(a))
CASE(transfer_by_name, a = named(OWN_NAME, OWN), LINE, broadcast(a), claim(a, OWN_NAME, OWN),
     other_claims(b, OTHER_NAME, OTHER), pass(CLAIMED), send_to_name(a, OTHER_NAME, GROUP, 10), take(b, 2),
     CONTROLS(b, 0x11, 2, 1, 0xFF, 0xFF, 0, 0x23, 1), take(b, 2))
CASE(transfer_to_name, a = broadcast(named(OWN_NAME, OWN)), LINE, claim(a, OWN_NAME, OWN), pass(CLAIMED),
     CONTROLS(b, 0x10, 10, 0, 2, 2, 0, 0x23, 1), take(b, 2), packets(b, 1, 2), receive(a))
