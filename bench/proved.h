/* The proved listener behind the names that bench.c calls: the library's calls on lent areas. */
static uint8_t state[HB_STATE];
static void fresh(void) { hb_fresh(state, HB_STATE, later); }
static void header_run(const uint8_t *s, size_t n) { hb_header_run(0xFF, s, n); }
static void data_run(const uint8_t *s, size_t n) { hb_data_run(0xFFFF, s, n); }
static void list(const uint8_t *s, size_t n, size_t lent)
{
    size_t count;
    hb_items_list(s, n, area, lent, &count);
}
static void frame_of(const uint8_t *s, size_t n)
{
    size_t wrote;
    hb_frame_write(6, 1, 3, s, n, area, AREA, &wrote);
}
static void cut_of(const uint8_t *s, size_t n, size_t each)
{
    size_t wrote, segments;
    hb_cut(whole_ack, HB_APDU, later, 0, 0, each, s, n, area, AREA, &wrote, &segments);
}
#ifdef REPLAYED
static void leave(int status);
static size_t replay(const uint8_t *records, size_t n, int *reported)
{
    size_t eaten;
    uint8_t said;
    if (hb_replay(state, HB_STATE, records, HB_RECORD * n, report, 16, area, AREA, &eaten, &said)) leave(3);
    *reported = said;
    return eaten;
}
#else
static size_t feed(const uint8_t *s, size_t n, int *reported)
{
    size_t eaten;
    uint8_t said;
    hb_feed(state, HB_STATE, s, n, report, 16, area, AREA, &eaten, &said);
    *reported = said;
    return eaten;
}
static int silence(void)
{
    uint8_t said;
    hb_silence(state, HB_STATE, report, 16, &said);
    return said;
}
static void forget(uint8_t slot) { hb_forget(state, HB_STATE, slot); }
#endif
