#include <stdio.h>
#include <stdint.h>
#include <stddef.h>
#include <string.h>
#include <time.h>
typedef struct { uint64_t w[455]; } K; typedef struct { uint32_t number; size_t value, made; } R;
K beonasul_fresh(void); R beonasul_run(K*, uint8_t*, size_t, const uint32_t*, size_t, const uint8_t*, size_t, float*, size_t);
static uint8_t store[65536]; static float out[51]; static const uint8_t bytes[6] = {0, 0, 1, 0, 0, 1};
static double now(void){struct timespec t; clock_gettime(CLOCK_MONOTONIC,&t); return t.tv_sec*1e9+t.tv_nsec;}
static double best(const uint32_t*w,size_t n,int calls){K k=beonasul_fresh(); double b=1e18; for(int j=0;j<60;j++){double t=now(); for(int i=0;i<2000;i++) beonasul_run(&k,store,65536,w,n,bytes,6,out,51); double d=(now()-t)/2000/calls; if(d<b)b=d;} return b;}
int main(void){ uint32_t tr[]={0x16,3,0x3a83126f,0,0}, mo[]={0x10,1,0x1700}, pp[]={0x14,0,0x15,0}, te[]={0x50,0}; uint32_t l[320], m[192], q[128]; for(int i=0;i<64;i++){memcpy(l+5*i,tr,20); memcpy(m+3*i,mo,12); if(i<32)memcpy(q+4*i,pp,16);}
 printf("translate %.0f/%.1f mode %.0f/%.1f push or pop (2 a list) %.0f/%.1f take_error %.0f\n",best(tr,5,1),best(l,320,64),best(mo,3,1),best(m,192,64),best(pp,4,2),best(q,128,64),best(te,2,1)); }
