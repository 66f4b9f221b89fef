// Levels of detail and samples of images, which are asked for by number.
#pragma OPENCL EXTENSION cl_khr_gl_msaa_sharing : enable
#pragma OPENCL EXTENSION cl_khr_mipmap_image : enable
#pragma OPENCL EXTENSION cl_khr_mipmap_image_writes : enable
constant sampler_t own = CLK_NORMALIZED_COORDS_TRUE | CLK_ADDRESS_CLAMP | CLK_FILTER_NEAREST;

kernel void asked(read_only image2d_msaa_t several, read_only image2d_t small, write_only image2d_t out,
                  global int *told)
{
    int2 at = (int2)(get_global_id(0), get_global_id(1));
    float4 one = read_imagef(several, at, 2);
    one += read_imagef(small, own, convert_float2(at), 1.0f);
    write_imagef(out, at, 1, one);
    told[0] = get_image_num_samples(several) + get_image_num_mip_levels(small);
}
