/* The five types, for a build without any header of the system: what BROTHLADDER_TYPES_H names. x86-64. */
#ifndef TYPES_H
#define TYPES_H
typedef unsigned char uint8_t;
typedef unsigned short uint16_t;
typedef unsigned int uint32_t;
typedef unsigned long uint64_t;
typedef unsigned long size_t;
#endif
