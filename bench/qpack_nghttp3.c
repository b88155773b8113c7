// Encodes or decodes one field section many times by nghttp3, with its dynamic table off.
// cc -O2 qpack_nghttp3.c -lnghttp3 && time ./a.out encode 1000000
#include <nghttp3/nghttp3.h>
#include <stdio.h>
#include <stdlib.h>
#include <string.h>

#define FIELD(name, value) {(uint8_t *)name, (uint8_t *)value, sizeof(name) - 1, sizeof(value) - 1, NGHTTP3_NV_FLAG_NONE}

static const nghttp3_nv FIELDS[] = {
    FIELD(":method", "POST"),
    FIELD(":scheme", "https"),
    FIELD(":authority", "shop.test"),
    FIELD(":path", "/cart?id=7"),
    FIELD("user-agent", "Mozilla/5.0"),
    FIELD("accept", "*/*"),
    FIELD("content-type", "application/json"),
    FIELD("cookie", "a=1; b=2"),
};

#define COUNT (sizeof(FIELDS) / sizeof(FIELDS[0]))

static size_t encode(nghttp3_buf *prefix, nghttp3_buf *lines, nghttp3_buf *stream, nghttp3_qpack_encoder *encoder) {
  nghttp3_buf_reset(prefix);
  nghttp3_buf_reset(lines);
  nghttp3_buf_reset(stream);
  if (nghttp3_qpack_encoder_encode(encoder, prefix, lines, stream, 0, FIELDS, COUNT) != 0) {
    exit(1);
  }
  return nghttp3_buf_len(prefix) + nghttp3_buf_len(lines);
}

static size_t decode(const uint8_t *bytes, size_t length, nghttp3_qpack_decoder *decoder, nghttp3_qpack_stream_context *context) {
  size_t fields = 0;
  nghttp3_qpack_stream_context_reset(context);
  while (1) {
    nghttp3_qpack_nv field;
    uint8_t flags = NGHTTP3_QPACK_DECODE_FLAG_NONE;
    nghttp3_ssize read = nghttp3_qpack_decoder_read_request(decoder, context, &field, &flags, bytes, length, 1);
    if (read < 0) {
      exit(1);
    }
    bytes += read;
    length -= (size_t)read;
    if (flags & NGHTTP3_QPACK_DECODE_FLAG_EMIT) {
      fields++;
      nghttp3_rcbuf_decref(field.name);
      nghttp3_rcbuf_decref(field.value);
    }
    if (flags & NGHTTP3_QPACK_DECODE_FLAG_FINAL) {
      return fields;
    }
  }
}

int main(int argc, char **argv) {
  const nghttp3_mem *memory = nghttp3_mem_default();
  nghttp3_qpack_encoder *encoder;
  nghttp3_qpack_decoder *decoder;
  nghttp3_qpack_stream_context *context;
  nghttp3_buf prefix, lines, stream;
  uint8_t section[4096];
  size_t total = 0;
  long times = argc == 3 ? atol(argv[2]) : 0;
  if (times < 1 || nghttp3_qpack_encoder_new(&encoder, 0, memory) != 0 || nghttp3_qpack_decoder_new(&decoder, 0, 0, memory) != 0 ||
      nghttp3_qpack_stream_context_new(&context, 0, memory) != 0) {
    return 2;
  }
  nghttp3_buf_init(&prefix);
  nghttp3_buf_init(&lines);
  nghttp3_buf_init(&stream);
  size_t length = encode(&prefix, &lines, &stream, encoder);
  size_t front = nghttp3_buf_len(&prefix);
  memcpy(section, prefix.pos, front);
  memcpy(section + front, lines.pos, length - front);
  for (long n = 0; n < times; n++) {
    total += strcmp(argv[1], "encode") == 0 ? encode(&prefix, &lines, &stream, encoder) : decode(section, length, decoder, context);
  }
  printf("%ld sections of %zu bytes, %zu in all\n", times, length, total);
  return 0;
}
