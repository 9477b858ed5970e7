/* The commands whose stack is measured, for stack.c. */
#ifndef STACK_COMMANDS_H
#define STACK_COMMANDS_H

#include <string.h>

#include "type24.h"

/* A command of T24_L_MAX octets that the largest sheet accepts, with as much data
 * as one of this L can carry; or one with every field wrong. */
static void make_command(uint8_t *command, size_t l, unsigned code, int wrong)
{
    const size_t most_data = l - T24_PRM_AT_DATA;

    memset(command, wrong ? 0xFF : 0, T24_L_MAX);
    command[0] = (uint8_t)code;
    if (wrong)
        return;
    if (code == T24_PRM_RD || code == T24_PRM_WR) {
        command[T24_PRM_AT_NUMBER] = 63; /* the last one, in two regions */
        command[T24_PRM_AT_SIZE] = (uint8_t)most_data;
    }
    if (code == T24_ID_RD) {
        command[T24_ID_AT_CODE] = 31;
        command[T24_ID_AT_SIZE] = (uint8_t)(most_data < 32 ? most_data : 32);
    }
    if (code == T24_CONNECT) {
        command[T24_CONNECT_AT_VERSION] = 0x30;
        command[T24_CONNECT_AT_COM_TIME] = 1;
    }
    if (code == T24_MEM_RD || code == T24_MEM_WR) {
        command[T24_MEM_AT_ELEMENT] = T24_ELEMENT_4;
        command[T24_MEM_AT_COUNT] = 13;
        command[T24_MEM_AT_ADDRESS] = 0xF0; /* crosses into the last region */
        command[T24_MEM_AT_ADDRESS + 1] = 0x07;
        command[T24_MEM_AT_ADDRESS + 2] = 0x01;
    }
}

#endif
