/*
 * spwd_words.h: the words of docs/CARD.md for every number that the box says. spwd.h includes it.
 *
 * Each function answers a string that stays, never NULL; of a number that is not on the card "not on the card". What is not called is
 * not linked. Written by .ci/words from the card: change the words there.
 */
#ifndef SPWD_WORDS_H
#define SPWD_WORDS_H

#include <stdint.h>

/* What the number of a verdict or of a refusal means. 0 is the verdict's; of any other answer it is no refusal, and has no words. */
static inline const char *spwd_words(uint32_t number)
{
    switch (number) {
    case 0:
        return "the plan is in the box";
    case 1:
        return "the file is longer than 16,384 bytes";
    case 2:
        return "the file ends in the middle of a field";
    case 3:
        return "a field of a kind that does not exist";
    case 4:
        return "a field out of order, or a second field of timing or of slot times";
    case 5:
        return "a field of a wrong length";
    case 6:
        return "a number out of range, or a link, path or reply from a device to itself";
    case 7:
        return "given a second time";
    case 8:
        return "something is named that was not given, or a router as initiator or target";
    case 9:
        return "a ninth initiator, or path number 129";
    case 10:
        return "the links of a path do not lead from its initiator to its target, or those of a reply not from the target back to the "
               "initiator";
    case 11:
        return "an entry names a target to which its initiator has no path, or a reply comes from such a target";
    case 12:
        return "the timing field is missing";
    case 13:
        return "this entry is still running when the same initiator's next entry begins";
    case 14:
        return "in this slot both may be using this link, for a command or for a reply";
    case 15:
        return "the plan has no entry: nobody may ever start, and the network would stay silent";
    case 20:
        return "there is no plan in the box";
    case 21:
        return "the upper two bits of the byte are not 0";
    case 22:
        return "this number is no initiator of the plan";
    case 23:
        return "the kind is neither 0 (read) nor 1 (write)";
    case 24:
        return "more than 4,096 data bytes";
    case 25:
        return "no entry of this initiator permits this target with this length";
    case 26:
        return "eight requests of this initiator are waiting";
    case 27:
        return "nothing of this initiator is under way";
    case 28:
        return "another transaction is under way";
    case 29:
        return "the record buffer has fewer than 136 bytes";
    case 30:
        return "the room is smaller than the plan";
    case 33:
        return "there is no such slot";
    default:
        return "not on the card";
    }
}

/* What to do about the number of a verdict or of a refusal. */
static inline const char *spwd_to_do(uint32_t number)
{
    switch (number) {
    case 0:
        return "compare the fingerprint with the team's own, not the four counts";
    case 1:
        return "it is not a plan, or two files were joined; ask for the plan alone";
    case 2:
        return "it was cut off when copied, or is no plan file but text; copy it again";
    case 3:
        return "the file is damaged, or made for another box; kinds are 01 to 07";
    case 4:
        return "devices, links, paths, entries, timing, slot times, replies: in this order; timing and slot times once";
    case 5:
        return "too many links in a path or reply (8) or targets in an entry (16), none at all, or damage";
    case 6:
        return "devices, links and slots are 0 to 63, spans 1 to 16, kinds 0 and 1; greatest interval 1 to 2,147,483,647 and not below "
               "the least; rate 2 to 400 Mbit/s, latencies and slot length up to 1,000,000 ns";
    case 7:
        return "the device, link, path, entry or reply stands earlier in the file, or a target stands twice in this entry";
    case 8:
        return "give the device or link first; initiators and targets are nodes, in a reply too";
    case 9:
        return "the box runs 8 initiators and 128 paths; replies are not counted";
    case 10:
        return "they must join end to end, over routers, meeting no device twice; a reply's begin at the target";
    case 11:
        return "add the path, or take the target or the reply out";
    case 12:
        return "the plan is not complete; slot times are no timing";
    case 13:
        return "shorten its span or move the next entry (after slot 63 comes slot 0)";
    case 14:
        return "move one of the two, or take the targets apart that share the link; if only a reply's own way does, choose another";
    case 15:
        return "the table of slots is missing; do not hand the box out, ask the team for the whole plan";
    case 20:
        return "load one";
    case 21:
        return "it is not a plain time-code; look at its source";
    case 22:
        return "an initiator stands first in some path of the plan";
    case 23:
        return "correct the request";
    case 24:
        return "split the request";
    case 25:
        return "256 bytes for each slot of the span, or with slot times what the plan's sheet says: shorter, or another plan";
    case 26:
        return "wait for starts; nothing was lost but this request";
    case 27:
        return "it was answered before, or reported late";
    case 28:
        return "the number is not the live one's: a reply that comes too late";
    case 29:
        return "lend 17 records of 8 bytes";
    case 30:
        return "16,384 bytes are always enough";
    case 33:
        return "slots are 0 to 63";
    default:
        return "ask for a newer card";
    }
}

/* What a record of this kind says. */
static inline const char *spwd_record_words(uint32_t kind)
{
    switch (kind) {
    case 1:
        return "this time-code came early";
    case 2:
        return "this time-code came late";
    case 3:
        return "this time-code is not the next one: nothing starts in this slot";
    case 4:
        return "late: no reply came within the span";
    case 5:
        return "started: initiator, target, number, length";
    case 6:
        return "not started: an earlier transaction of this initiator is still under way";
    default:
        return "not on the card";
    }
}

/* What to do about a record of this kind. */
static inline const char *spwd_record_to_do(uint32_t kind)
{
    switch (kind) {
    case 1:
        return "the slots are shorter than planned: look at the time-code source";
    case 2:
        return "as for 1; a clock that was set back shows as late too";
    case 3:
        return "look at the time-code source; what was under way is reported late";
    case 4:
        return "the transaction is over for the box; ask its target";
    case 5:
        return "nothing";
    case 6:
        return "the spans of an accepted plan leave no room for this; if it is ever seen, keep the box and its record buffer for "
               "examination";
    default:
        return "ask for a newer card";
    }
}

#endif
