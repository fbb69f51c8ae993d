/*
 * The picture docs/story.svg: one scan of 1,024 points through the right table, and what the beginning of a table for
 * 2,048 points would have made of it; and what the library answers to that table instead. Prints the picture.
 */
#include "../include/fandrute.h"
#include <math.h>
#include <stdio.h>
#include <stdlib.h>
#include <string.h>

enum { N = 1024, LOG = 10, LONGER = 2048, CHANNELS = 400, WIDTH = 900, LEFT = 70 };

static const double TURN = 6.283185307179586;

/* A spectrum with four bands, as a roast's might be. */
static double light(int k) {
    static const double bands[4][3] = {{120, 9, 1}, {165, 12, 0.55}, {235, 8, 0.8}, {300, 16, 0.35}};
    double sum = 0.15 * exp(-pow((k - 190) / 150.0, 2));
    for (int i = 0; i < 4; i++)
        sum += bands[i][2] * exp(-pow((k - bands[i][0]) / bands[i][1], 2));
    return sum;
}

/* The interferogram of that spectrum, in whole counts; its largest is the burst at the start. */
static void scan(int32_t *buf) {
    double burst = 0;
    for (int t = 0; t < N; t++) {
        double sum = 0;
        for (int k = 1; k < N / 2; k++)
            sum += light(k) * cos(TURN * k * t / N);
        if (t == 0)
            burst = sum;
        buf[2 * t] = (int32_t)lround(30000 * sum / burst);
        buf[2 * t + 1] = 0;
    }
}

/* v/D, the floor of (v + D/2)/D; every v here is far below 2^53 in size. */
static int32_t rounded(int64_t v, int64_t d) { return (int32_t)floor((double)(v + d / 2) / (double)d); }

/* Schedule 1 with whatever table, and nothing looked at: what a transform without judgement does. */
static void unjudged(int32_t *buf, const int32_t *table) {
    for (int stride = 1; stride < N; stride *= 2)
        for (int h = N / stride / 2, base = 0; base < N; base += 2 * h)
            for (int i = 0; i < h; i++) {
                int32_t *p = buf + 2 * (base + i), *q = p + 2 * h;
                const int32_t *t = table + 2 * (stride * i);
                int64_t re = p[0] - q[0], im = p[1] - q[1];
                p[0] = rounded(p[0] + q[0], 2);
                p[1] = rounded(p[1] + q[1], 2);
                q[0] = rounded(t[0] * re - t[1] * im, 32768);
                q[1] = rounded(t[0] * im + t[1] * re, 32768);
            }
}

static void need(fdr_answer answer, const char *what) {
    if (answer.number != 0) {
        fprintf(stderr, "story: %s: refused %u at place %zu\n", what, answer.number, answer.place);
        exit(1);
    }
}

static double size(const int32_t *pair) { return hypot(pair[0], pair[1]); }

/* The sizes of the first channels as one line. */
static void curve(const int32_t *spectrum, double most, int top, int height, const char *style) {
    printf("<polyline fill=\"none\" %s points=\"", style);
    for (int k = 1; k < CHANNELS; k++)
        printf("%.1f,%.1f ", LEFT + (WIDTH - LEFT - 20.0) * k / CHANNELS, top + height * (1 - size(spectrum + 2 * k) / most));
    printf("\"/>\n");
}

static void text(double x, int y, const char *style, const char *words) {
    printf("<text x=\"%.0f\" y=\"%d\" %s>%s</text>\n", x, y, style, words);
}

/* A panel with its two axes. */
static void panel(double most, int top, int height, const char *title) {
    text(LEFT, top - 12, "font-size=\"17\" font-weight=\"bold\"", title);
    printf("<rect x=\"%d\" y=\"%d\" width=\"%d\" height=\"%d\" fill=\"#faf8f5\" stroke=\"#999\"/>\n", LEFT, top, WIDTH - LEFT - 20, height);
    for (int k = 0; k <= CHANNELS; k += 50) {
        char words[16];
        snprintf(words, sizeof words, "%d", k);
        text(LEFT + (WIDTH - LEFT - 20.0) * k / CHANNELS, top + height + 18, "font-size=\"12\" text-anchor=\"middle\"", words);
    }
    for (int count = 0; count < most; count += 100) {
        char words[16];
        snprintf(words, sizeof words, "%d", count);
        text(LEFT - 6, (int)(top + height * (1 - count / most)) + 4, "font-size=\"12\" text-anchor=\"end\"", words);
    }
    text(WIDTH - 20, top + height + 34, "font-size=\"12\" text-anchor=\"end\" fill=\"#555\"", "channel");
    printf("<text transform=\"translate(%d %d) rotate(-90)\" font-size=\"12\" text-anchor=\"middle\" fill=\"#555\">counts</text>\n", LEFT - 38, top + height / 2);
}

int main(void) {
    static int32_t samples[2 * N], right[2 * N], wrong[2 * N], refused[2 * N], table[N], longer[LONGER], none[1];
    scan(samples);
    need(fdr_fixed_fill(table, N), "fill");
    need(fdr_fixed_fill(longer, LONGER), "fill");

    memcpy(right, samples, sizeof right);
    need(fdr_fixed_transform(1, right, 2 * N, table, N, none, 0), "transform");
    need(fdr_fixed_reverse(right, 2 * N), "reverse");

    /* The same with no judgement: first that it is the same steps, then the longer table's beginning. */
    memcpy(wrong, samples, sizeof wrong);
    unjudged(wrong, table);
    need(fdr_fixed_reverse(wrong, 2 * N), "reverse");
    if (memcmp(wrong, right, sizeof right) != 0) {
        fprintf(stderr, "story: the steps here are not the library's\n");
        return 1;
    }
    memcpy(wrong, samples, sizeof wrong);
    unjudged(wrong, longer);
    need(fdr_fixed_reverse(wrong, 2 * N), "reverse");

    memcpy(refused, samples, sizeof refused);
    fdr_answer answer = fdr_fixed_transform(1, refused, 2 * N, longer, N, none, 0);
    if (answer.number != 4 || memcmp(refused, samples, sizeof samples) != 0) {
        fprintf(stderr, "story: the wrong table was answered %u\n", answer.number);
        return 1;
    }

    double most = 0;
    for (int k = 1; k < CHANNELS; k++)
        most = fmax(most, fmax(size(right + 2 * k), size(wrong + 2 * k)));
    most *= 1.1;
    printf("<svg xmlns=\"http://www.w3.org/2000/svg\" viewBox=\"0 0 %d 640\" font-family=\"sans-serif\">\n", WIDTH);
    printf("<rect width=\"%d\" height=\"640\" fill=\"white\"/>\n", WIDTH);
    panel(most, 50, 210, "One scan of 1,024 points, through the table for 1,024");
    curve(right, most, 50, 210, "stroke=\"#6b3e1d\" stroke-width=\"2\"");
    panel(most, 345, 210, "The same scan, had the beginning of a table for 2,048 been used");
    curve(right, most, 345, 210, "stroke=\"#c9b29b\" stroke-width=\"1.5\" stroke-dasharray=\"5 4\"");
    curve(wrong, most, 345, 210, "stroke=\"#b3261e\" stroke-width=\"2\"");
    char words[128];
    snprintf(words, sizeof words, "fdr_fixed_transform answers %u at place %zu and changes nothing", answer.number, answer.place);
    text(LEFT, 615, "font-size=\"17\" font-weight=\"bold\" fill=\"#b3261e\"", words);
    printf("</svg>\n");
    return 0;
}
