#define _POSIX_C_SOURCE 200809L
#include "opening.h"
#include <stdlib.h>
#include <string.h>

/* The name, Kitty's flags, the level of modifyOtherKeys, the modes above, the background, and DA1 last, which nearly all answer. A terminal that knows
 * no such question may print a letter of it, or change its style. */
static const char questions[] = "\033[>q\033[?u\033[?4m\033[?1006$p\033[?1004$p\033[?2004$p\033]11;?\033\\\033[m\r\033[K\033[c";

const char *opening_ask(opening *it, hed_parser *parser, uint64_t now) {
  uint64_t number;
  hed_questions_ask(&it->questions, parser, now, 0, HED_TEXT(""), &number);
  it->is_asked = true;
  it->until = now + OPENING_MS;
  return questions;
}

static void take_colour(opening *it, const hed_reply *reply) {
  if (reply->name != HED_COLOUR_NAME_BACKGROUND) return;
  it->has_background = true;
  it->is_dark = 2 * reply->red + 7 * reply->green + reply->blue < 10 * 0x8000;
}

static void take_mode(opening *it, const hed_reply *reply) {
  bool is_missing = reply->state == HED_MODE_STATE_NOT_RECOGNIZED || reply->state == HED_MODE_STATE_PERMANENTLY_RESET;
  answer told = is_missing ? IS_MISSING : IS_THERE;
  if (reply->mode == 1006) it->mouse = told;
  if (reply->mode == 1004) it->focus = told;
  if (reply->mode == 2004) it->paste = told;
}

static void take_version(opening *it, const uint8_t *name, size_t length) {
  it->name.length = 0;
  text_add_shown(&it->name, (const char *)name, length < NAME_MOST ? length : NAME_MOST);
}

static void take_reply(opening *it, const hed_event *event, const uint8_t *bytes, size_t length) {
  static const char level[] = ">4;";
  uint8_t name[NAME_MOST];
  hed_reply reply;
  if (event->kind == HED_KIND_KEYBOARD_FLAGS) it->kitty = IS_THERE;
  if (event->kind == HED_KIND_CSI && length > strlen(level) && memcmp(bytes, level, strlen(level)) == 0 && bytes[length - 1] == 'm')
    it->modify_other_keys = IS_THERE;
  if (hed_read_reply(event->kind, bytes, length, &reply, NULL, 0, name, sizeof name) != HED_OK) return;
  if (reply.kind == HED_REPLY_COLOUR) take_colour(it, &reply);
  if (reply.kind == HED_REPLY_MODE) take_mode(it, &reply);
  if (reply.kind == HED_REPLY_VERSION) take_version(it, name, reply.len);
}

/* A terminal that answers the last question, and not that on Kitty's flags, hasn't its protocol. */
static void take_end(opening *it) {
  it->is_answered = true;
  if (it->kitty == NOT_TOLD) it->kitty = IS_MISSING;
}

bool opening_take(opening *it, hed_parser *parser, uint64_t now, const hed_event *event) {
  uint8_t bytes[256];
  uint64_t number = 0;
  if (it->questions.count == 0) return false;
  size_t length = hed_parser_text(parser, bytes, sizeof bytes);
  if (length > sizeof bytes) length = sizeof bytes;
  if (hed_questions_note(&it->questions, parser, now, event, bytes, length, &number) != HED_OK || number == 0) return false;
  take_reply(it, event, bytes, length);
  if (it->questions.count == 0) take_end(it);
  return true;
}

int32_t opening_left(const opening *it, uint64_t now) {
  bool waits = it->is_asked && !it->is_answered && now < it->until;
  return waits ? (int32_t)(it->until - now) : -1;
}

void opening_choose(const opening *it, const options *asked, bool modes[MODE_COUNT]) {
  bool has_protocol = asked->modes[MODE_KITTY_ALL] || asked->modes[MODE_OTHER_KEYS_1] || asked->modes[MODE_OTHER_KEYS_2];
  memcpy(modes, asked->modes, sizeof asked->modes);
  if (asked->is_plain || it->is_dumb) return;
  modes[MODE_PASTE] = true;
  modes[MODE_FOCUS] |= !asked->is_once;
  if (has_protocol) return;
  modes[MODE_KITTY] = it->kitty == IS_THERE;
  modes[MODE_OTHER_KEYS_2] = it->kitty != IS_THERE && it->modify_other_keys == IS_THERE;
}

/* A terminal that wasn't asked is taken to have what a word asks for. */
static bool is_on(const opening *it, bool is_chosen, answer told) {
  return is_chosen && (!it->is_asked || told == IS_THERE);
}

protocol opening_protocol(const opening *it, const bool modes[MODE_COUNT]) {
  protocol on = { .kitty_flags = 0 };
  if (is_on(it, modes[MODE_KITTY], it->kitty)) on.kitty_flags = KITTY_BEST;
  if (is_on(it, modes[MODE_KITTY_ALL], it->kitty)) on.kitty_flags = KITTY_ALL;
  if (is_on(it, modes[MODE_OTHER_KEYS_1], it->modify_other_keys)) on.modify_other_keys = 1;
  if (is_on(it, modes[MODE_OTHER_KEYS_2], it->modify_other_keys)) on.modify_other_keys = 2;
  return on;
}

static const char *state_of(const opening *it, answer told, bool is_chosen) {
  static const char *const words[] = { [NOT_TOLD] = "unknown", [IS_THERE] = "yes", [IS_MISSING] = "no" };
  return is_on(it, is_chosen, told) ? "on" : words[told];
}

static void add_name(text *out, const opening *it) {
  if (it->name.length > 0) text_add(out, "%s", it->name.bytes);
  else text_add_shown(out, it->type, strnlen(it->type, NAME_MOST));
  if (!it->is_answered) text_add(out, it->is_asked ? " doesn't answer" : " isn't asked");
}

void opening_add_lines(text *out, const opening *it, const bool modes[MODE_COUNT], const twins *keys) {
  bool has_kitty = keys->by.kitty_flags > 0, has_level = keys->by.modify_other_keys > 0;
  const char *background = !it->has_background ? "unknown" : it->is_dark ? "dark" : "light";
  add_name(out, it);
  text_add(out, ": Kitty's protocol %s, ", state_of(it, it->kitty, has_kitty));
  text_add(out, "modifyOtherKeys %s\n", state_of(it, it->modify_other_keys, has_level));
  text_add(out, "mouse %s, background %s; ", state_of(it, it->mouse, modes[MODE_MOUSE]), background);
  if (keys->merged == 0) text_add(out, "all %zu everyday keys are told apart here\n", keys->count);
  else text_add(out, "%zu everyday key%s can't be told apart here\n", keys->merged, keys->merged == 1 ? "" : "s");
}

void opening_add_missing(text *out, const opening *it, const options *asked) {
  const struct {
    size_t mode;
    answer told, least; /* what the terminal says, and what it says if it hasn't the mode */
    const char *what;
  } modes[] = {
    { MODE_KITTY_ALL, it->kitty, NOT_TOLD, "Kitty's protocol" },
    { MODE_OTHER_KEYS_1, it->modify_other_keys, NOT_TOLD, "modifyOtherKeys" },
    { MODE_OTHER_KEYS_2, it->modify_other_keys, NOT_TOLD, "modifyOtherKeys" },
    { MODE_MOUSE, it->mouse, IS_MISSING, "mouse reports" },
    { MODE_PASTE, it->paste, IS_MISSING, "bracketed paste" },
    { MODE_FOCUS, it->focus, IS_MISSING, "reports of the focus" },
  };
  for (size_t i = 0; i < sizeof modes / sizeof *modes; i++) {
    if (!asked->modes[modes[i].mode]) continue;
    if (modes[i].told == IS_MISSING) text_add(out, "%s: this terminal doesn't have %s\n", all_modes[modes[i].mode].word, modes[i].what);
    else if (modes[i].told == NOT_TOLD && modes[i].least == NOT_TOLD)
      text_add(out, "%s: this terminal doesn't say that it has %s\n", all_modes[modes[i].mode].word, modes[i].what);
  }
}
