/* The stack of each exported call on octets that lead it deep: painted, used, read back. */
static uint8_t deep_state[HB_STATE], deep_fields[HB_NPDU], deep_out[HB_SLOT], deep_list[HB_ITEM * 33];
static size_t deep_number, deep_segments;
static uint8_t deep_told;

/* a network header with all its parts; a confirmed request of the later edition in segments; sixteen groups, one in the other; an ack whose value has fifteen more in its group */
static const uint8_t deep_npdu[] = {1, 0x28, 0, 5, 7, 1, 2, 3, 4, 5, 6, 7, 0, 9, 7, 1, 2, 3, 4, 5, 6, 7, 255};
static const uint8_t deep_apdu[] = {0x0C, 0x75, 1, 0, 1, 12};
static uint8_t deep_items[2 * 16 + 5];
static const uint8_t deep_target[] = {0x0C, 0, 0, 0, 1, 0x19, 0x55};
static const uint8_t deep_real[] = {0x44, 0x42, 0x39, 0x99, 0x9A};
static uint8_t deep_ack[sizeof deep_target + sizeof deep_items];
static const uint8_t deep_whole[HB_APDU] = {0, 0, 0, 1, 0, 0, 5, 1, 0, 127, 12, 0, 7};

#define DEEP(name, call) \
    static void name(void) { call; }
DEEP(deep_fresh, hb_fresh(deep_state, HB_STATE, 1))
DEEP(deep_silence, hb_silence(deep_state, HB_STATE, report, HB_REPORT, &deep_told))
DEEP(deep_forget, hb_forget(deep_state, HB_STATE, 0))
DEEP(deep_header_check, hb_header_check(deep_npdu, 5))
DEEP(deep_data_check, hb_data_check(deep_npdu, sizeof deep_npdu))
DEEP(deep_npdu_read, hb_npdu_read(deep_npdu, sizeof deep_npdu, deep_fields, HB_NPDU, &deep_number))
DEEP(deep_npdu_write, hb_npdu_write(deep_fields, HB_NPDU, deep_out, sizeof deep_out, &deep_number))
DEEP(deep_apdu_read, hb_apdu_read(deep_apdu, sizeof deep_apdu, 1, deep_fields, HB_APDU, &deep_number))
DEEP(deep_apdu_write, hb_apdu_write(deep_fields, HB_APDU, 1, deep_out, sizeof deep_out, &deep_number))
DEEP(deep_items_list, hb_items_list(deep_items, sizeof deep_items, deep_list, sizeof deep_list, &deep_number))
DEEP(deep_items_judged, hb_items_list(deep_items, sizeof deep_items, deep_list, 0, &deep_number))
DEEP(deep_item_next, hb_item_next(deep_items, sizeof deep_items, 0, &deep_number))
DEEP(deep_item_step, hb_item_step(deep_items, sizeof deep_items, 0, deep_fields, HB_ITEM, &deep_number))
DEEP(deep_items_write, hb_items_write(deep_list, sizeof deep_list, deep_items, sizeof deep_items, deep_out, sizeof deep_out, &deep_number))
DEEP(deep_service_read, hb_service_read(3, 12, deep_ack, sizeof deep_ack, deep_fields, HB_SERVICE))
DEEP(deep_service_write, hb_service_write(deep_fields, HB_SERVICE, deep_items + 1, sizeof deep_items - 2, deep_out, sizeof deep_out, &deep_number))
DEEP(deep_frame_write, hb_frame_write(6, 1, 3, deep_items, sizeof deep_items, deep_out, sizeof deep_out, &deep_number))
DEEP(deep_cut, hb_cut(deep_whole, HB_APDU, 1, 1, 3, 5, deep_items, sizeof deep_items, deep_out, sizeof deep_out, &deep_number, &deep_segments))

static void stacks(size_t (*used_by)(void (*)(void)))
{
    static const struct { const char *name; void (*work)(void); } calls[] = {
        {"hb_fresh", deep_fresh}, {"hb_silence", deep_silence}, {"hb_forget", deep_forget},
        {"hb_header_check, hb_header_run", deep_header_check}, {"hb_data_check, hb_data_run", deep_data_check},
        {"hb_npdu_read", deep_npdu_read}, {"hb_npdu_write", deep_npdu_write}, {"hb_apdu_read", deep_apdu_read}, {"hb_apdu_write", deep_apdu_write},
        {"hb_items_list", deep_items_list}, {"hb_items_list, lent no octets", deep_items_judged}, {"hb_item_next", deep_item_next}, {"hb_item_step", deep_item_step},
        {"hb_items_write", deep_items_write}, {"hb_service_read", deep_service_read}, {"hb_service_write", deep_service_write},
        {"hb_frame_write", deep_frame_write}, {"hb_cut", deep_cut}};
    for (int i = 0; i < 16; i++) deep_items[i] = 0x3E, deep_items[sizeof deep_items - 1 - i] = 0x3F;
    for (int i = 0; i < 5; i++) deep_items[16 + i] = deep_real[i];
    for (size_t i = 0; i < sizeof deep_ack; i++) deep_ack[i] = i < sizeof deep_target ? deep_target[i] : deep_items[i - sizeof deep_target];
    for (size_t i = 0; i < sizeof calls / sizeof *calls; i++) {
        say("| ");
        say(calls[i].name);
        say(" | ");
        say_number(used_by(calls[i].work), 10, 1);
        say(" |\n");
    }
}
