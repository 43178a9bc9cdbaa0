#include <stdint.h>
#include <string.h>
static const uint32_t K[64]={
0x428a2f98,0x71374491,0xb5c0fbcf,0xe9b5dba5,0x3956c25b,0x59f111f1,0x923f82a4,0xab1c5ed5,
0xd807aa98,0x12835b01,0x243185be,0x550c7dc3,0x72be5d74,0x80deb1fe,0x9bdc06a7,0xc19bf174,
0xe49b69c1,0xefbe4786,0x0fc19dc6,0x240ca1cc,0x2de92c6f,0x4a7484aa,0x5cb0a9dc,0x76f988da,
0x983e5152,0xa831c66d,0xb00327c8,0xbf597fc7,0xc6e00bf3,0xd5a79147,0x06ca6351,0x14292967,
0x27b70a85,0x2e1b2138,0x4d2c6dfc,0x53380d13,0x650a7354,0x766a0abb,0x81c2c92e,0x92722c85,
0xa2bfe8a1,0xa81a664b,0xc24b8b70,0xc76c51a3,0xd192e819,0xd6990624,0xf40e3585,0x106aa070,
0x19a4c116,0x1e376c08,0x2748774c,0x34b0bcb5,0x391c0cb3,0x4ed8aa4a,0x5b9cca4f,0x682e6ff3,
0x748f82ee,0x78a5636f,0x84c87814,0x8cc70208,0x90befffa,0xa4506ceb,0xbef9a3f7,0xc67178f2};
#define ROR(x,n) (((x)>>(n))|((x)<<(32-(n))))
static inline void sha_block(uint32_t s[8], const uint8_t *p){
  uint32_t w[16],a=s[0],b=s[1],c=s[2],d=s[3],e=s[4],f=s[5],g=s[6],h=s[7];
  for(int i=0;i<16;i++){uint32_t x;memcpy(&x,p+4*i,4);w[i]=__builtin_bswap32(x);}
#define RND(a,b,c,d,e,f,g,h,i,wi) do{ \
  uint32_t t1=h+(ROR(e,6)^ROR(e,11)^ROR(e,25))+(g^(e&(f^g)))+K[i]+(wi); \
  uint32_t t2=(ROR(a,2)^ROR(a,13)^ROR(a,22))+((a&b)|(c&(a|b))); d+=t1; h=t1+t2;}while(0)
#define S0(x) (ROR(x,7)^ROR(x,18)^((x)>>3))
#define S1(x) (ROR(x,17)^ROR(x,19)^((x)>>10))
#define W(i) (w[(i)&15]+=S1(w[((i)+14)&15])+w[((i)+9)&15]+S0(w[((i)+1)&15]))
#define EIGHT(i,G) RND(a,b,c,d,e,f,g,h,i,G(i));RND(h,a,b,c,d,e,f,g,i+1,G(i+1));RND(g,h,a,b,c,d,e,f,i+2,G(i+2));RND(f,g,h,a,b,c,d,e,i+3,G(i+3));\
 RND(e,f,g,h,a,b,c,d,i+4,G(i+4));RND(d,e,f,g,h,a,b,c,i+5,G(i+5));RND(c,d,e,f,g,h,a,b,i+6,G(i+6));RND(b,c,d,e,f,g,h,a,i+7,G(i+7))
#define W0(i) w[i]
  EIGHT(0,W0); EIGHT(8,W0);
  for(int t=16;t<64;t+=16){ EIGHT(t,W); EIGHT(t+8,W); }
  s[0]+=a;s[1]+=b;s[2]+=c;s[3]+=d;s[4]+=e;s[5]+=f;s[6]+=g;s[7]+=h;
}
/* one message of n bytes */
static inline void sha256_msg(const uint8_t *m,size_t n,uint8_t out[32]){
  uint32_t s[8]={0x6a09e667,0xbb67ae85,0x3c6ef372,0xa54ff53a,0x510e527f,0x9b05688c,0x1f83d9ab,0x5be0cd19};
  uint8_t t[128]; size_t i=0;
  for(;i+64<=n;i+=64) sha_block(s,m+i);
  size_t r=n-i; memcpy(t,m+i,r); t[r]=0x80; size_t l=r<56?64:128; memset(t+r+1,0,l-r-1-8);
  uint64_t bits=__builtin_bswap64((uint64_t)n*8); memcpy(t+l-8,&bits,8);
  for(size_t j=0;j<l;j+=64) sha_block(s,t+j);
  for(int j=0;j<8;j++){uint32_t x=__builtin_bswap32(s[j]);memcpy(out+4*j,&x,4);}
}
