/* Document 01, and document 02, (i) to (vii), in plain C; plain.h says what for. */
#include "plain.h"

#include <string.h>

enum {
	HEADER = 8,
	CHECK = 4,
	BODY_MIN = 60,
	BODY_MAX = 1518,
	SENT_MIN = HEADER + BODY_MIN + CHECK,
	SENT_MAX = HEADER + BODY_MAX + CHECK,
	PREAMBLE = 0x55,
	PREAMBLE_MAX = 7,
	RECEIVED_MAX = PREAMBLE_MAX + 2 + BODY_MAX + CHECK,
	EXPRESS = 0xd5,
	VERIFY = 0x07,
	RESPOND = 0x19
};

#define START_CODES 0xe6, 0x4c, 0x7f, 0xb3
#define CONTINUATION_CODES 0x61, 0x52, 0x9e, 0x2a
static const uint8_t start_codes[4] = { START_CODES };
static const uint8_t continuation_codes[4] = { CONTINUATION_CODES };
static const uint8_t delimiters[11] = { EXPRESS, START_CODES, CONTINUATION_CODES, VERIFY, RESPOND };
static const uint8_t fragment_codes[4] = { 0xe6, 0x4c, 0x7f, 0xb3 };

/* The check octets: reflected polynomial EDB88320, an octet a turn. */
static const uint32_t crc_table[256] = {
	0x00000000, 0x77073096, 0xee0e612c, 0x990951ba, 0x076dc419, 0x706af48f, 0xe963a535, 0x9e6495a3,
	0x0edb8832, 0x79dcb8a4, 0xe0d5e91e, 0x97d2d988, 0x09b64c2b, 0x7eb17cbd, 0xe7b82d07, 0x90bf1d91,
	0x1db71064, 0x6ab020f2, 0xf3b97148, 0x84be41de, 0x1adad47d, 0x6ddde4eb, 0xf4d4b551, 0x83d385c7,
	0x136c9856, 0x646ba8c0, 0xfd62f97a, 0x8a65c9ec, 0x14015c4f, 0x63066cd9, 0xfa0f3d63, 0x8d080df5,
	0x3b6e20c8, 0x4c69105e, 0xd56041e4, 0xa2677172, 0x3c03e4d1, 0x4b04d447, 0xd20d85fd, 0xa50ab56b,
	0x35b5a8fa, 0x42b2986c, 0xdbbbc9d6, 0xacbcf940, 0x32d86ce3, 0x45df5c75, 0xdcd60dcf, 0xabd13d59,
	0x26d930ac, 0x51de003a, 0xc8d75180, 0xbfd06116, 0x21b4f4b5, 0x56b3c423, 0xcfba9599, 0xb8bda50f,
	0x2802b89e, 0x5f058808, 0xc60cd9b2, 0xb10be924, 0x2f6f7c87, 0x58684c11, 0xc1611dab, 0xb6662d3d,
	0x76dc4190, 0x01db7106, 0x98d220bc, 0xefd5102a, 0x71b18589, 0x06b6b51f, 0x9fbfe4a5, 0xe8b8d433,
	0x7807c9a2, 0x0f00f934, 0x9609a88e, 0xe10e9818, 0x7f6a0dbb, 0x086d3d2d, 0x91646c97, 0xe6635c01,
	0x6b6b51f4, 0x1c6c6162, 0x856530d8, 0xf262004e, 0x6c0695ed, 0x1b01a57b, 0x8208f4c1, 0xf50fc457,
	0x65b0d9c6, 0x12b7e950, 0x8bbeb8ea, 0xfcb9887c, 0x62dd1ddf, 0x15da2d49, 0x8cd37cf3, 0xfbd44c65,
	0x4db26158, 0x3ab551ce, 0xa3bc0074, 0xd4bb30e2, 0x4adfa541, 0x3dd895d7, 0xa4d1c46d, 0xd3d6f4fb,
	0x4369e96a, 0x346ed9fc, 0xad678846, 0xda60b8d0, 0x44042d73, 0x33031de5, 0xaa0a4c5f, 0xdd0d7cc9,
	0x5005713c, 0x270241aa, 0xbe0b1010, 0xc90c2086, 0x5768b525, 0x206f85b3, 0xb966d409, 0xce61e49f,
	0x5edef90e, 0x29d9c998, 0xb0d09822, 0xc7d7a8b4, 0x59b33d17, 0x2eb40d81, 0xb7bd5c3b, 0xc0ba6cad,
	0xedb88320, 0x9abfb3b6, 0x03b6e20c, 0x74b1d29a, 0xead54739, 0x9dd277af, 0x04db2615, 0x73dc1683,
	0xe3630b12, 0x94643b84, 0x0d6d6a3e, 0x7a6a5aa8, 0xe40ecf0b, 0x9309ff9d, 0x0a00ae27, 0x7d079eb1,
	0xf00f9344, 0x8708a3d2, 0x1e01f268, 0x6906c2fe, 0xf762575d, 0x806567cb, 0x196c3671, 0x6e6b06e7,
	0xfed41b76, 0x89d32be0, 0x10da7a5a, 0x67dd4acc, 0xf9b9df6f, 0x8ebeeff9, 0x17b7be43, 0x60b08ed5,
	0xd6d6a3e8, 0xa1d1937e, 0x38d8c2c4, 0x4fdff252, 0xd1bb67f1, 0xa6bc5767, 0x3fb506dd, 0x48b2364b,
	0xd80d2bda, 0xaf0a1b4c, 0x36034af6, 0x41047a60, 0xdf60efc3, 0xa867df55, 0x316e8eef, 0x4669be79,
	0xcb61b38c, 0xbc66831a, 0x256fd2a0, 0x5268e236, 0xcc0c7795, 0xbb0b4703, 0x220216b9, 0x5505262f,
	0xc5ba3bbe, 0xb2bd0b28, 0x2bb45a92, 0x5cb36a04, 0xc2d7ffa7, 0xb5d0cf31, 0x2cd99e8b, 0x5bdeae1d,
	0x9b64c2b0, 0xec63f226, 0x756aa39c, 0x026d930a, 0x9c0906a9, 0xeb0e363f, 0x72076785, 0x05005713,
	0x95bf4a82, 0xe2b87a14, 0x7bb12bae, 0x0cb61b38, 0x92d28e9b, 0xe5d5be0d, 0x7cdcefb7, 0x0bdbdf21,
	0x86d3d2d4, 0xf1d4e242, 0x68ddb3f8, 0x1fda836e, 0x81be16cd, 0xf6b9265b, 0x6fb077e1, 0x18b74777,
	0x88085ae6, 0xff0f6a70, 0x66063bca, 0x11010b5c, 0x8f659eff, 0xf862ae69, 0x616bffd3, 0x166ccf45,
	0xa00ae278, 0xd70dd2ee, 0x4e048354, 0x3903b3c2, 0xa7672661, 0xd06016f7, 0x4969474d, 0x3e6e77db,
	0xaed16a4a, 0xd9d65adc, 0x40df0b66, 0x37d83bf0, 0xa9bcae53, 0xdebb9ec5, 0x47b2cf7f, 0x30b5ffe9,
	0xbdbdf21c, 0xcabac28a, 0x53b39330, 0x24b4a3a6, 0xbad03605, 0xcdd70693, 0x54de5729, 0x23d967bf,
	0xb3667a2e, 0xc4614ab8, 0x5d681b02, 0x2a6f2b94, 0xb40bbe37, 0xc30c8ea1, 0x5a05df1b, 0x2d02ef8d,};

static const uint32_t all_ones = 0xffffffff;

/* What an mCRC is over an FCS: its last two octets inverted. The first octet is the lowest. */
static const uint32_t mcrc_inverts = 0xffff0000;

/* Not drawn into its callers, where the loop would take an instruction more. */
__attribute__((noinline)) static uint32_t crc_over(uint32_t crc, const uint8_t *octets, size_t n)
{
	for (const uint8_t *end = octets + n; octets != end; octets++)
		crc = crc >> 8 ^ crc_table[(crc ^ *octets) & 0xff];
	return crc;
}

static void put_word(uint8_t *out, uint32_t word)
{
	out[0] = (uint8_t)word;
	out[1] = (uint8_t)(word >> 8);
	out[2] = (uint8_t)(word >> 16);
	out[3] = (uint8_t)(word >> 24);
}

static uint32_t get_word(const uint8_t *octets)
{
	return (uint32_t)octets[0] | (uint32_t)octets[1] << 8 | (uint32_t)octets[2] << 16 | (uint32_t)octets[3] << 24;
}

static uint32_t get_word_high_first(const uint8_t *octets)
{
	return (uint32_t)octets[0] << 24 | (uint32_t)octets[1] << 16 | (uint32_t)octets[2] << 8 | octets[3];
}

/* Sending */

static bool is_body(size_t length)
{
	return length >= BODY_MIN && length <= BODY_MAX;
}

/* A header with its delimiter in the last place. */
static void put_header(uint8_t *out, uint8_t delimiter)
{
	memset(out, PREAMBLE, HEADER - 1);
	out[HEADER - 1] = delimiter;
}

static void put_continuation_header(uint8_t *out, uint8_t delimiter, uint8_t fragment)
{
	memset(out, PREAMBLE, HEADER - 2);
	out[HEADER - 2] = delimiter;
	out[HEADER - 1] = fragment;
}

int plain_express(const uint8_t *body, size_t length, uint8_t *out, size_t room, struct plain_written *written)
{
	if (room < SENT_MAX)
		return 30;
	if (!is_body(length))
		return 32;
	put_header(out, EXPRESS);
	memcpy(out + HEADER, body, length);
	put_word(out + HEADER + length, ~crc_over(all_ones, body, length));
	written->length = (uint32_t)(HEADER + length + CHECK);
	written->done = 1;
	return 0;
}

static int order(uint8_t delimiter, uint8_t *out, size_t room, struct plain_written *written)
{
	if (room < SENT_MAX)
		return 30;
	put_header(out, delimiter);
	memset(out + HEADER, 0, BODY_MIN);
	put_word(out + HEADER + BODY_MIN, ~crc_over(all_ones, out + HEADER, BODY_MIN) ^ mcrc_inverts);
	written->length = SENT_MIN;
	written->done = 1;
	return 0;
}

int plain_verify(uint8_t *out, size_t room, struct plain_written *written)
{
	return order(VERIFY, out, room, written);
}

int plain_respond(uint8_t *out, size_t room, struct plain_written *written)
{
	return order(RESPOND, out, room, written);
}

static bool sender_in_range(const struct plain_sender *s)
{
	if (s->active > 1 || s->hold > 1 || s->extra > 3 || s->next > 3)
		return false;
	if (s->length == 0)
		return s->sent == 0 && s->fragment == 0;
	return is_body(s->length) && s->sent >= BODY_MIN && s->sent <= s->length && s->length - s->sent >= BODY_MIN &&
	       s->fragment <= 3;
}

int plain_preemptable(struct plain_sender *s, const uint8_t *body, size_t length, bool asked, uint64_t t, uint8_t *out,
		      size_t room, struct plain_written *written)
{
	if (room < SENT_MAX)
		return 30;
	if (!sender_in_range(s))
		return 31;
	if (!is_body(length))
		return 32;
	if (s->length != 0 && s->length != length)
		return 33;
	if (s->active && s->hold)
		return 34;

	uint32_t sent = s->sent;
	uint32_t n = (uint32_t)length - sent;
	bool done = true;
	if (s->active && asked && t <= BODY_MAX) {
		uint32_t least = 64 * (1 + s->extra) - CHECK;
		if (t > least)
			least = (uint32_t)t;
		if (least + 64 <= n + CHECK) {
			n = least;
			done = false;
		}
	}

	uint32_t fragment = 0;
	if (s->length != 0) {
		put_continuation_header(out, continuation_codes[(s->next + 3) % 4], fragment_codes[s->fragment]);
		fragment = (s->fragment + 1) % 4;
	} else if (s->active) {
		put_header(out, start_codes[s->next]);
		s->next = (s->next + 1) % 4;
	} else {
		put_header(out, EXPRESS);
	}
	memcpy(out + HEADER, body + sent, n);
	uint32_t check = ~crc_over(all_ones, body, sent + n);
	put_word(out + HEADER + n, done ? check : check ^ mcrc_inverts);

	s->length = done ? 0 : (uint32_t)length;
	s->sent = done ? 0 : sent + n;
	s->fragment = done ? 0 : fragment;
	written->length = HEADER + n + CHECK;
	written->done = done;
	return 0;
}

/* Receiving */

enum kind { KIND_EXPRESS, KIND_START, KIND_CONTINUATION, KIND_VERIFY, KIND_RESPOND, KIND_UNKNOWN };

static enum kind kind_of(uint8_t delimiter, uint32_t *frame)
{
	*frame = 0;
	switch (delimiter) {
	case EXPRESS:
		return KIND_EXPRESS;
	case VERIFY:
		return KIND_VERIFY;
	case RESPOND:
		return KIND_RESPOND;
	default:
		break;
	}
	for (uint32_t i = 0; i < 4; i++) {
		*frame = i;
		if (delimiter == start_codes[i])
			return KIND_START;
		if (delimiter == continuation_codes[i])
			return KIND_CONTINUATION;
	}
	return KIND_UNKNOWN;
}

/* 4 where the octet is no fragment code. */
static uint32_t fragment_of(uint8_t octet)
{
	uint32_t fragment = 0;
	while (fragment < 4 && octet != fragment_codes[fragment])
		fragment++;
	return fragment;
}

static uint32_t ones(uint32_t x)
{
	uint32_t n = 0;
	for (; x != 0; x &= x - 1)
		n++;
	return n;
}

/* The least number of bits by which an octet differs from any of the eleven delimiters. They are four bits apart, so that two
 * or less cannot be beaten. */
static uint32_t distance(uint8_t octet)
{
	uint32_t best = 8;
	for (size_t i = 0; i < sizeof delimiters && best > 2; i++) {
		uint32_t n = ones((uint32_t)(octet ^ delimiters[i]));
		if (n < best)
			best = n;
	}
	return best;
}

static bool receiver_in_range(const struct plain_receiver *r)
{
	if (r->assembling > 1)
		return false;
	if (!r->assembling)
		return r->frame == 0 && r->fragment == 0 && r->kept == 0 && r->crc == 0;
	return r->frame <= 3 && r->fragment <= 3 && is_body(r->kept);
}

static void close_assembly(struct plain_receiver *r)
{
	r->assembling = r->frame = r->fragment = r->kept = r->crc = 0;
}

static int abandon(struct plain_receiver *r, int answer)
{
	close_assembly(r);
	r->assembly_errors++;
	return answer;
}

static int delimiter_error(struct plain_receiver *r, int answer)
{
	r->delimiter_errors++;
	return answer;
}

static int deliver(struct plain_receiver *r, uint32_t length, uint32_t *detail)
{
	close_assembly(r);
	*detail = length;
	return 1;
}

static int receive_start(struct plain_receiver *r, uint32_t frame, const uint8_t *data, uint32_t n, uint8_t *buffer,
			 uint32_t *detail)
{
	if (r->assembling)
		abandon(r, 0);
	uint32_t crc = crc_over(all_ones, data, n);
	uint32_t last = get_word(data + n);
	if (last != ~crc && last != (~crc ^ mcrc_inverts))
		return abandon(r, 25);
	memcpy(buffer, data, n);
	if (last == ~crc)
		return deliver(r, n, detail);
	r->assembling = 1;
	r->frame = frame;
	r->fragment = 0;
	r->kept = n;
	r->crc = crc;
	*detail = n;
	return 2;
}

static int receive_continuation(struct plain_receiver *r, uint32_t frame, uint32_t fragment, const uint8_t *data,
				uint32_t n, uint8_t *buffer, uint32_t *detail)
{
	if (!r->assembling)
		return delimiter_error(r, 22);
	if (frame != r->frame || fragment != r->fragment)
		return abandon(r, 23);
	uint32_t kept = r->kept + n;
	if (kept > BODY_MAX)
		return abandon(r, 24);
	uint32_t crc = crc_over(r->crc, data, n);
	uint32_t last = get_word(data + n);
	if (last != ~crc && last != (~crc ^ mcrc_inverts))
		return abandon(r, 25);
	memcpy(buffer + r->kept, data, n);
	r->fragments++;
	if (last == ~crc) {
		r->assembled++;
		return deliver(r, kept, detail);
	}
	r->fragment = (r->fragment + 1) % 4;
	r->kept = kept;
	r->crc = crc;
	*detail = kept;
	return 2;
}

/* How many octets 55 lead the mFrame; of too many, one too many. */
static size_t preamble_of(const uint8_t *mframe, size_t n)
{
	size_t most = n <= PREAMBLE_MAX ? n : PREAMBLE_MAX + 1, leading = 0;
	while (leading < most && mframe[leading] == PREAMBLE)
		leading++;
	return leading;
}

/* Whether a header may have so many octets behind it: a body, or a part of one, and its check octets. */
static bool is_framed(size_t n)
{
	return n >= BODY_MIN + CHECK && n <= BODY_MAX + CHECK;
}

/* What an mFrame says before its data. */
struct head {
	enum kind kind;
	uint8_t delimiter;
	uint32_t frame, fragment;
	size_t length; /* of the header */
};

/* 0, or the number of the refusal. Too few octets or too many are the last that it is refused for. */
static int read_head(const uint8_t *mframe, size_t n, struct head *head)
{
	size_t at = preamble_of(mframe, n);
	if (at > PREAMBLE_MAX)
		return 14;
	if (at == n)
		return 12;
	head->delimiter = mframe[at++];
	head->kind = kind_of(head->delimiter, &head->frame);
	if (head->kind == KIND_UNKNOWN)
		return 15;
	head->fragment = 0;
	if (head->kind == KIND_CONTINUATION) {
		if (at == n)
			return 12;
		head->fragment = fragment_of(mframe[at++]);
		if (head->fragment > 3)
			return 17;
	}
	head->length = at;
	if (is_framed(n - at))
		return 0;
	return n - at < BODY_MIN + CHECK ? 12 : 13;
}

int plain_receive(struct plain_receiver *r, const uint8_t *mframe, size_t n, uint8_t *buffer, size_t room,
		  uint32_t *detail)
{
	*detail = 0;
	if (room < BODY_MAX)
		return 10;
	if (!receiver_in_range(r))
		return 11;
	struct head head;
	int refusal = read_head(mframe, n, &head);
	if (refusal == 15)
		*detail = distance(head.delimiter);
	if (refusal == 15 || refusal == 17)
		return delimiter_error(r, refusal);
	if (refusal != 0)
		return refusal;

	const uint8_t *data = mframe + head.length;
	uint32_t length = (uint32_t)(n - head.length - CHECK);
	switch (head.kind) {
	case KIND_EXPRESS:
		if (get_word(data + length) != ~crc_over(all_ones, data, length))
			return 20;
		*detail = length;
		return 0;
	case KIND_VERIFY:
	case KIND_RESPOND:
		if (get_word(data + length) != (~crc_over(all_ones, data, length) ^ mcrc_inverts))
			return 21;
		return head.kind == KIND_VERIFY ? 3 : 4;
	case KIND_START:
		return receive_start(r, head.frame, data, length, buffer, detail);
	default:
		return receive_continuation(r, head.frame, head.fragment, data, length, buffer, detail);
	}
}

size_t plain_express_body(const uint8_t *mframe, size_t n, size_t *start)
{
	*start = 0;
	size_t header = preamble_of(mframe, n) + 1;
	if (header > PREAMBLE_MAX + 1 || header > n || mframe[header - 1] != EXPRESS || !is_framed(n - header))
		return 0;
	const uint8_t *data = mframe + header;
	size_t length = n - header - CHECK;
	if (get_word(data + length) != ~crc_over(all_ones, data, length))
		return 0;
	*start = header;
	return length;
}

/* Receiving as octets come. The area holds the longest mFrame and no octet more. */

static bool stream_in_range(const struct plain_stream *s)
{
	return s->count < RECEIVED_MAX ? s->more == 0 : s->count == RECEIVED_MAX && s->more <= 1;
}

int plain_octet(struct plain_stream *s, uint8_t *area, size_t size, uint8_t octet)
{
	if (size < RECEIVED_MAX)
		return 18;
	if (!stream_in_range(s))
		return 19;
	if (s->count < RECEIVED_MAX)
		area[s->count++] = octet;
	else
		s->more = 1;
	return 0;
}

int plain_end(struct plain_stream *s, const uint8_t *area, size_t size, struct plain_receiver *r, uint8_t *buffer,
	      size_t room, uint32_t *detail)
{
	*detail = 0;
	if (size < RECEIVED_MAX)
		return 18;
	if (!stream_in_range(s))
		return 19;
	/* However many there were more, one makes it too long behind any header, and of such only the header is looked at. */
	uint32_t n = s->count + s->more;
	s->count = s->more = 0;
	return plain_receive(r, area, n, buffer, room, detail);
}

/* Verification */

enum { ATTEMPTS = 3, WAIT_MIN = 1, WAIT_MAX = 128 };

static bool is_wait(uint32_t milliseconds)
{
	return milliseconds >= WAIT_MIN && milliseconds <= WAIT_MAX;
}

static bool link_in_range(const struct plain_link *l)
{
	if (l->owed > 1 || !is_wait(l->wait))
		return false;
	if (l->phase == PLAIN_TRYING)
		return l->attempt >= 1 && l->attempt <= ATTEMPTS && l->left >= 1 && l->left <= l->wait;
	return l->phase <= PLAIN_FAILED && l->attempt == 0 && l->left == 0;
}

static void enter(struct plain_link *l, enum plain_phase phase, uint32_t attempt, uint32_t left)
{
	l->phase = phase;
	l->attempt = attempt;
	l->left = left;
}

int plain_event(struct plain_link *l, uint32_t event, uint32_t wait, bool *ordered)
{
	if (!link_in_range(l) || event < PLAIN_V_HEARD || event > PLAIN_LINK_FAILED)
		return 40;
	if (event == PLAIN_ENABLE && !is_wait(wait))
		return 41;
	*ordered = false;
	switch ((enum plain_event)event) {
	case PLAIN_ENABLE:
		if (l->phase == PLAIN_OFF) {
			l->wait = wait;
			enter(l, PLAIN_TRYING, 1, wait);
			*ordered = true;
		}
		break;
	case PLAIN_DISABLE:
		enter(l, PLAIN_OFF, 0, 0);
		break;
	case PLAIN_LINK_FAILED:
		enter(l, PLAIN_OFF, 0, 0);
		l->owed = 0;
		break;
	case PLAIN_R_HEARD:
		if (l->phase == PLAIN_TRYING)
			enter(l, PLAIN_VERIFIED, 0, 0);
		break;
	case PLAIN_V_HEARD:
		l->owed = 1;
		break;
	case PLAIN_RESPONSE_SENT:
		l->owed = 0;
		break;
	case PLAIN_MILLISECOND:
		if (l->phase != PLAIN_TRYING)
			break;
		l->left--;
		if (l->left != 0)
			break;
		if (l->attempt < ATTEMPTS) {
			enter(l, PLAIN_TRYING, l->attempt + 1, l->wait);
			*ordered = true;
		} else {
			enter(l, PLAIN_FAILED, 0, 0);
		}
		break;
	}
	return 0;
}

/* Trace */

enum { TRACE_HEADER = 4, CONTENT_MAX = 1600, MFRAME_KIND = 1 };

int plain_trace(const uint8_t *trace, size_t n, size_t at, struct plain_content *content)
{
	size_t left = at < n ? n - at : 0;
	if (left == 0)
		return PLAIN_TRACE_END;
	if (left < TRACE_HEADER)
		return 50;
	const uint8_t *head = trace + at;
	size_t length = (size_t)(head[0] | head[1] << 8);
	if (length > CONTENT_MAX)
		return 51;
	if ((head[2] | head[3] << 8) != MFRAME_KIND)
		return 52;
	if (left - TRACE_HEADER < length)
		return 53;
	content->start = at + TRACE_HEADER;
	content->length = length;
	content->next = at + TRACE_HEADER + length;
	return 0;
}

/* The hall's schedule */

enum { ENTRY_HEADER = 2, ENTRY_VALUE = 5, ENTRY = ENTRY_HEADER + ENTRY_VALUE, ENTRIES_MAX = 256, OPERATION_MAX = 2, GATES_MAX = 255 };

/* What is found in a list of which every entry is good. */
struct schedule {
	uint32_t entries, events;
	uint64_t cycle;
};

static uint32_t interval_of(const uint8_t *entry)
{
	return get_word_high_first(entry + 3);
}

/* The entry at the front of n octets, n at least 1. */
static int entry_fault(const uint8_t *entry, size_t n)
{
	if (n < ENTRY_HEADER || n - ENTRY_HEADER < entry[1])
		return 60;
	if (entry[0] > OPERATION_MAX)
		return 61;
	return entry[1] == ENTRY_VALUE ? 0 : 62;
}

/* A refused entry is the last that was counted. */
static int find(const uint8_t *list, size_t n, struct schedule *found)
{
	found->entries = found->events = 0;
	found->cycle = 0;
	for (; n != 0; n -= ENTRY, list += ENTRY) {
		int fault = entry_fault(list, n);
		found->entries++;
		if (fault != 0)
			return fault;
		if (found->entries > ENTRIES_MAX)
			return 63;
		found->events += list[0] != 0;
		found->cycle += interval_of(list);
	}
	return 0;
}

int plain_gates_read(const uint8_t *list, size_t n, struct plain_entry *entries, size_t room, uint32_t *count)
{
	struct schedule found;
	int fault = find(list, n, &found);
	*count = found.entries;
	if (fault != 0)
		return fault;
	if (found.entries > room)
		return 64;
	for (const uint8_t *end = list + n; list != end; list += ENTRY, entries++) {
		entries->operation = list[0];
		entries->gates = list[2];
		entries->interval = interval_of(list);
	}
	return 0;
}

int plain_gates_events(const uint8_t *list, size_t n, struct plain_gate_event *events, size_t room, uint32_t *count,
		       uint64_t *cycle)
{
	struct schedule found;
	int fault = find(list, n, &found);
	uint64_t time = 0;
	*count = fault != 0 ? found.entries : found.events;
	*cycle = 0;
	if (fault != 0)
		return fault;
	if (found.events > room)
		return 64;
	for (const uint8_t *end = list + n; list != end; list += ENTRY) {
		if (list[0] != 0) {
			events->time = time;
			events->operation = list[0];
			events++;
		}
		time += interval_of(list);
	}
	*cycle = found.cycle;
	return 0;
}

/* An entry that is to be written behind so many others. */
static int unwritable(const struct plain_entry *entry, size_t behind)
{
	if (entry->operation > OPERATION_MAX || entry->gates > GATES_MAX)
		return 61;
	return behind < ENTRIES_MAX ? 0 : 63;
}

int plain_gates_write(const struct plain_entry *entries, size_t n, uint8_t *list, size_t room, uint32_t *count)
{
	for (size_t i = 0; i < n; i++) {
		int fault = unwritable(entries + i, i);
		if (fault != 0) {
			*count = (uint32_t)i + 1;
			return fault;
		}
	}
	*count = (uint32_t)n * ENTRY;
	if (*count > room)
		return 64;
	for (const struct plain_entry *end = entries + n; entries != end; entries++) {
		*list++ = (uint8_t)entries->operation;
		*list++ = ENTRY_VALUE;
		*list++ = (uint8_t)entries->gates;
		*list++ = (uint8_t)(entries->interval >> 24);
		*list++ = (uint8_t)(entries->interval >> 16);
		*list++ = (uint8_t)(entries->interval >> 8);
		*list++ = (uint8_t)entries->interval;
	}
	return 0;
}

/* Captures. Every record is judged before any is copied; the copying then tests nothing more and ends where the output is
 * full. */

enum { FILE_HEADER = 24, VERSION_AT = 4, LINK_TYPE_AT = 20, RECORD_HEADER = 16, STORED_AT = 8, ORIGINAL_AT = 12, FIELD = 4 };

/* How much longer a record's header is in a capture than in a trace. */
enum { LONGER = RECORD_HEADER - TRACE_HEADER };

/* The file header, first as it is written, low octets first, then with the high ones first. */
static const uint8_t file_headers[2][FILE_HEADER] = {
	{ 0xd4, 0xc3, 0xb2, 0xa1, 2, 0, 4, 0, 0, 0, 0, 0, 0, 0, 0, 0, 0x40, 0x06, 0, 0, 0x12, 0x01, 0, 0 },
	{ 0xa1, 0xb2, 0xc3, 0xd4, 0, 2, 0, 4, 0, 0, 0, 0, 0, 0, 0, 0, 0, 0, 0x06, 0x40, 0, 0, 0x01, 0x12 }
};

/* How many records a trace has; a refused one is the last that was counted. */
static int count_traced(const uint8_t *trace, size_t n, uint64_t *records)
{
	struct plain_content content;
	int answer;
	*records = 0;
	for (size_t at = 0; (answer = plain_trace(trace, n, at, &content)) == 0; at = content.next)
		++*records;
	if (answer == PLAIN_TRACE_END)
		return 0;
	++*records;
	return answer;
}

int plain_capture_write(const uint8_t *trace, size_t n, uint8_t *capture, size_t room, uint64_t *value)
{
	uint64_t records;
	int fault = count_traced(trace, n, &records);
	*value = records;
	if (fault != 0)
		return fault;
	*value = LONGER * records + FILE_HEADER + n;
	if (*value > room)
		return 78;
	const uint8_t *full = capture + *value;
	memcpy(capture, file_headers[0], FILE_HEADER);
	for (capture += FILE_HEADER; capture != full;) {
		size_t length = (size_t)(trace[0] | trace[1] << 8);
		memset(capture, 0, STORED_AT);
		put_word(capture + STORED_AT, (uint32_t)length);
		put_word(capture + ORIGINAL_AT, (uint32_t)length);
		memcpy(capture + RECORD_HEADER, trace + TRACE_HEADER, length);
		capture += RECORD_HEADER + length;
		trace += TRACE_HEADER + length;
	}
	return 0;
}

/* The first octet tells which of the two orders it can be. */
static int file_fault(const uint8_t *capture, size_t n, bool *high_first)
{
	if (n < FILE_HEADER)
		return 70;
	*high_first = capture[0] == file_headers[1][0];
	const uint8_t *header = file_headers[*high_first];
	if (memcmp(capture, header, FIELD) != 0)
		return 71;
	if (memcmp(capture + VERSION_AT, header + VERSION_AT, FIELD) != 0)
		return 72;
	return memcmp(capture + LINK_TYPE_AT, header + LINK_TYPE_AT, FIELD) == 0 ? 0 : 73;
}

static uint32_t stored_length(const uint8_t *record, bool high_first)
{
	return high_first ? get_word_high_first(record + STORED_AT) : get_word(record + STORED_AT);
}

/* The record at the front of n octets, n at least 1. Two lengths are the same where their octets are. */
static int stored_fault(const uint8_t *record, size_t n, bool high_first)
{
	if (n < RECORD_HEADER)
		return 74;
	uint32_t length = stored_length(record, high_first);
	if (length > CONTENT_MAX)
		return 75;
	if (memcmp(record + STORED_AT, record + ORIGINAL_AT, FIELD) != 0)
		return 76;
	return n - RECORD_HEADER < length ? 77 : 0;
}

/* How many records so many octets behind a file header have; a refused one is the last that was counted. */
static int count_stored(const uint8_t *record, size_t n, bool high_first, uint64_t *records)
{
	*records = 0;
	while (n != 0) {
		int fault = stored_fault(record, n, high_first);
		++*records;
		if (fault != 0)
			return fault;
		size_t whole = RECORD_HEADER + stored_length(record, high_first);
		record += whole;
		n -= whole;
	}
	return 0;
}

int plain_capture_read(const uint8_t *capture, size_t n, uint8_t *trace, size_t room, uint64_t *value)
{
	bool high_first = false;
	uint64_t records = 0;
	int fault = file_fault(capture, n, &high_first);
	if (fault == 0)
		fault = count_stored(capture + FILE_HEADER, n - FILE_HEADER, high_first, &records);
	*value = records;
	if (fault != 0)
		return fault;
	*value = n - FILE_HEADER - LONGER * records;
	if (*value > room)
		return 78;
	capture += FILE_HEADER;
	for (const uint8_t *full = trace + *value; trace != full;) {
		uint32_t length = stored_length(capture, high_first);
		put_word(trace, MFRAME_KIND << 16 | length);
		memcpy(trace + TRACE_HEADER, capture + RECORD_HEADER, length);
		trace += TRACE_HEADER + length;
		capture += RECORD_HEADER + length;
	}
	return 0;
}
