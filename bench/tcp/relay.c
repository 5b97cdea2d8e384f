/* Carries frames between a tap device and a UDP socket, one frame a datagram, with a thread for each direction. The words are those of
   tests/outside/tap_relay.py. Ends with SIGTERM.
     relay NETNS DEVICE HERE THERE        (HERE and THERE: ADDRESS:PORT) */
#define _GNU_SOURCE
#include <arpa/inet.h>
#include <err.h>
#include <fcntl.h>
#include <linux/if_tun.h>
#include <net/if.h>
#include <pthread.h>
#include <sched.h>
#include <stdio.h>
#include <stdlib.h>
#include <string.h>
#include <sys/ioctl.h>
#include <unistd.h>

/* Copies frames from the first descriptor to the second one. A frame whose write fails is lost, as on a cable. */
static void *copies(void *both) {
  int *it = both;
  char frame[65535];
  for (ssize_t octets;;) {
    while ((octets = read(it[0], frame, sizeof frame)) <= 0) {}
    if (write(it[1], frame, octets) < 0) continue;
  }
  return NULL;
}

/* Returns the address and port in a text. */
static struct sockaddr_in endpoint(char *text) {
  struct sockaddr_in it = {.sin_family = AF_INET};
  char *colon = strrchr(text, ':');
  if (!colon) errx(2, "no ADDRESS:PORT: %s", text);
  *colon = 0;
  it.sin_port = htons(atoi(colon + 1));
  if (inet_pton(AF_INET, text, &it.sin_addr) != 1) errx(2, "no address: %s", text);
  return it;
}

int main(int count, char **words) {
  if (count != 5) errx(2, "usage: relay NETNS DEVICE HERE THERE");
  struct sockaddr_in here = endpoint(words[3]), there = endpoint(words[4]);
  int link = socket(AF_INET, SOCK_DGRAM, 0);
  if (bind(link, (void *)&here, sizeof here) || connect(link, (void *)&there, sizeof there)) err(1, "socket");
  char path[300];
  snprintf(path, sizeof path, "/run/netns/%s", words[1]);
  if (setns(open(path, O_RDONLY), CLONE_NEWNET)) err(1, "%s", path);
  struct ifreq request = {.ifr_flags = IFF_TAP | IFF_NO_PI};
  strncpy(request.ifr_name, words[2], IFNAMSIZ - 1);
  int device = open("/dev/net/tun", O_RDWR);
  if (ioctl(device, TUNSETIFF, &request)) err(1, "%s", words[2]);
  int out[] = {device, link}, in[] = {link, device};
  pthread_t thread;
  if (pthread_create(&thread, NULL, copies, out)) errx(1, "no thread");
  copies(in);
}
